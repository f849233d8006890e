"""What computes the parts of a study: processes of this machine (`local`), a network that stays in memory
(`conversation`), other hosts (`hosts`) or SLURM (`slurm`). `remote` manages the last two, which run `task`.
"""
