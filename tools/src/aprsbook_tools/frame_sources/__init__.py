"""Where frames come from while a net runs, and how they are stamped."""
