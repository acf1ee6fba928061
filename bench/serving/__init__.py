"""What bench/serve.py and bench/shared.py share: servers, their players, and what is measured of them."""
