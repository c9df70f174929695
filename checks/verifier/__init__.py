"""A verifier of evidence that was written from the pages of docs."""
