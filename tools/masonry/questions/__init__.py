"""Questions about a model, each with a certificate that `check` accepts."""
