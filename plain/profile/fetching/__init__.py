"""The profile's chapters "URLs that are fetched" and "Replies as the client reads them"."""
