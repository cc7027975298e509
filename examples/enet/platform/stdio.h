// protocol.c includes it, and prints with ENET_DEBUG alone, which no guest has.
