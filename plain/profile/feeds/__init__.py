"""The profile's chapters "Collections and changes", "Feeds", "What is told of a feed" and "The feed that is made"."""
