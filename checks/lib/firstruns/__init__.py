"""What `checks/first_run` looks at: small clones, with a command in place of the kit."""
