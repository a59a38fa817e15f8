"""Texts of Verilog as an engineer writes them for a device with carry chains, which bench/area measures beside circuits of opgen."""
