"""The parts of the benchmark. Each module measures one question and records its figures."""
