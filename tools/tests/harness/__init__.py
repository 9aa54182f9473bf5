"""What tests and benchmarks lend each other: the built program, database files, clients, proxies, and what is
checked."""
