"""The comparison of the plain program with the built ones on random inputs."""
