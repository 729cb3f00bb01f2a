"""The profile's chapter "HTTP" (RFC 9110, RFC 9112)."""
