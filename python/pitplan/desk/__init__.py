"""`pitplan desk`: the same commands and the same study.toml in a browser, for one person."""
