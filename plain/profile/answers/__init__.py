"""The profile's chapters "What an edition answers", "Selection", "Shapes of replies" and "Descriptions"."""
