"""What the built programs are to do, by models that share no code with them: replies, trees, budgets, and programs beside the library."""
