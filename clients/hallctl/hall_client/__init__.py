"""What the command `hallctl` is made of. Nothing of it is proved: the hall decides, and hallctl asks."""
