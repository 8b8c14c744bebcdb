"""Layers of images (OCI image specification): their archives, and what makes them over what lower layers show."""
