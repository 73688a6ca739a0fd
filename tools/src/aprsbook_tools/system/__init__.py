"""Files, streams and programs: what stands between a command and the machine."""
