// The search over names and texts. `NAMES` has for each a name, where it is, its page with the anchor, what it is, how far behind others that fit as well it
// stands, and a text.
"use strict";
(function () {
  const field = document.getElementById("search"), list = document.getElementById("found"), told = document.getElementById("told");
  let active = -1;

  // How well an entry fits what is sought: the less, the better; none where it does not. What std calls `insert` is `try_insert` here.
  function rank(entry, sought) {
    const name = entry[0].toLowerCase(), whole = ("::" + entry[1] + "::" + entry[0]).toLowerCase();
    const tried = sought.replace(/(\w+)$/, "try_$1");
    if (name === sought || name === tried) return 0;
    if (whole.endsWith("::" + sought) || whole.endsWith("::" + tried)) return 1;
    if (name.startsWith(sought) || name.startsWith(tried)) return 2;
    if (name.includes("_" + sought)) return 3;
    if (name.includes(sought)) return 4;
    if (sought.includes(":") && whole.includes(sought)) return 5;
    const words = sought.split(/\s+/);
    if (words.every((it) => name.includes(it))) return 6;
    return sought.length > 2 && words.every((it) => entry[5].includes(it) || name.includes(it)) ? 9 : -1;
  }

  function find(sought) {
    const kinds = ["type", "module", "call", "std", "guide", "word"];
    const found = NAMES.map((entry) => [rank(entry, sought), kinds.indexOf(entry[3]), entry]).filter((it) => it[0] >= 0);
    for (const it of found) it[0] += it[2][3] === "word" ? 3 : 0; // what can be called comes before what contracts say
    found.sort((a, b) => a[0] - b[0] || a[1] - b[1] || a[2][4] - b[2][4] || a[2][0].length - b[2][0].length || (a[2][1] + a[2][0] < b[2][1] + b[2][0] ? -1 : 1));
    return found.map((it) => it[2]);
  }

  function row(entry, at) {
    const item = document.createElement("li"), link = document.createElement("a"), name = document.createElement("code"), where = document.createElement("span");
    item.id = "found-" + at;
    item.setAttribute("role", "option");
    item.setAttribute("aria-selected", "false");
    link.href = entry[2];
    link.tabIndex = -1;
    name.textContent = entry[0];
    where.textContent = (entry[1] ? entry[1] + " · " : "") + entry[3];
    link.append(name, " ", where);
    item.append(link);
    return item;
  }

  function show() {
    const sought = field.value.trim().toLowerCase(), found = sought ? find(sought) : [];
    list.replaceChildren(...found.slice(0, 40).map(row));
    list.hidden = !sought;
    field.setAttribute("aria-expanded", String(!list.hidden));
    told.textContent = !sought ? "" : found.length ? found.length + " found" : "nothing found";
    if (sought && !found.length) {
      const none = document.createElement("li");
      none.textContent = "Nothing has this name.";
      list.append(none);
    }
    choose(found.length ? 0 : -1);
  }

  function choose(at) {
    const rows = list.querySelectorAll("[role=option]");
    active = rows.length ? (at + rows.length) % rows.length : -1;
    rows.forEach((it, i) => it.setAttribute("aria-selected", String(i === active)));
    if (active >= 0) {
      field.setAttribute("aria-activedescendant", rows[active].id);
      rows[active].scrollIntoView({ block: "nearest" });
    } else field.removeAttribute("aria-activedescendant");
  }

  function go() {
    const link = active >= 0 && list.querySelectorAll("[role=option] a")[active];
    if (!link) return;
    const to = link.href;
    close();
    location.href = to;
  }

  function close() {
    field.value = "";
    show();
    field.blur();
  }

  field.addEventListener("input", show);
  field.form.addEventListener("submit", (event) => { event.preventDefault(); go(); });
  field.addEventListener("keydown", (event) => {
    if (event.key === "ArrowDown") choose(active + 1);
    else if (event.key === "ArrowUp") choose(active - 1);
    else if (event.key === "Escape") close();
    else return;
    event.preventDefault();
  });
  list.addEventListener("click", () => setTimeout(close));
  document.addEventListener("click", (event) => { if (!field.form.contains(event.target)) list.hidden = true; });
  document.addEventListener("keydown", (event) => {
    if (event.key !== "/" || event.ctrlKey || event.metaKey || event.altKey || /^(INPUT|TEXTAREA|SELECT)$/.test(event.target.tagName)) return;
    event.preventDefault();
    field.focus();
  });

  // An address that names a folded call unfolds it.
  function unfold() {
    let place = location.hash && document.getElementById(decodeURIComponent(location.hash.slice(1)));
    const target = place;
    for (; place; place = place.parentElement) if (place.tagName === "DETAILS") place.open = true;
    if (target) target.scrollIntoView();
  }
  addEventListener("hashchange", unfold);
  unfold();
  show();
})();
