"""What the tests and the benchmarks share.

| Module | Contents |
|---|---|
| checks, files | `Difference`, comparisons, waiting for an event, times; files and folders |
| programs | where the built programs are, C programs of this folder, and what this machine lacks |
| service, front | the service in a folder of its own, its clients; the front end, and a service that a test simulates |
| journal, spool_model, stories, admin | a second encoder of a spool's file, its model, spools with any bytes, `spool_admin` |
| real_children, child_folder, stored_scripts | filters and backends, the folder of a test of children, the scripts of `spool_scripts` |
| traces, allocations | the system calls of a program, by strace; its allocations, counted and refused |
| large_run | the limits of one spool |
| sources | the crates and their sources, for the scripts of the gate |
| cups, stock_documents, stock_runs | a private CUPS, and its filters and backends |
| failover_volume, debian_machine, hostile_children | a replicated volume, a fresh Debian, children that do harm |
"""
