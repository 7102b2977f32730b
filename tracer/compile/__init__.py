"""What spbags-cc does: it rewrites and compiles sources, and links them with the hooks and the detector."""
