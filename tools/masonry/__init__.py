"""What the scripts in the folder above stand on."""
