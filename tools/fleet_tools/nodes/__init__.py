"""The verbs over a state file: edits, histories, exchanges with other nodes, and what a host's folders get of it."""
