"""At the machine: runs a controller in real time between channels to field buses, keeps its log, and shows it.

    python3 -m forec_io loop CONFIG              (also: forec loop CONFIG)
    python3 -m forec_io replay-field LOG         (also: forec replay-field LOG)
    python3 -m forec_io watch CONFIG             (also: forec watch CONFIG)

The parts: `config` reads the configuration and holds it against the program; `channel` is what all channels have in common, and
`modbus`, `mqtt`, `canbus`, `csvfile`, `lines` and `simulation` are the adapters; `beat` has the clock, `latencies` the statistics,
`log` the files of a run; `loop` runs the ticks, `watch` shows them, and `replay` repeats a log.
"""
