"""The subcommands of `.ci/tree`, and what they share of the sources."""
