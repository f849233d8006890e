"""Limits of the engine `ttm`, of the tools, and default settings of walks: each number stands here and nowhere else."""

# The engine's, under the names that its crates have for them
MOST_STOPS = 65_535
MOST_TRIPS = 1_000_000
MOST_RUNS = 1_000_000  # of trips, on all days that count
MOST_EVENTS = 8_000_000  # records of stop_times.txt
MOST_FOOTPATHS = 4_000_000
MOST_BYTES = 1_073_741_824  # of a file
MOST_RIDES = 8
MOST_FOOT_SECONDS = 7_200  # of a walk
MOST_SHARES = 8  # percentiles of a matrix
MOST_LIMITS = 8  # cutoffs of a matrix
MOST_DAYS = 6  # before and after the date
MOST_TRIES = 8
MOST_WORKERS = 64

MOST_NUMBER = (1 << 32) - 1  # in a field of a feed, in a cutoff
LAST_TIME = 604_799  # seconds: 167:59:59, the last time of a feed
MOST_SECONDS = (1 << 24) - 1  # travel times; float32 is exact up to here

# Files that the tools read as a whole, in bytes
MOST_TOML = 4_000_000
MOST_JSON = 200_000_000

MOST_CUTOFF_MINUTES = 10_000
MOST_PORT = 65_535

WALKING_KMH = 4.8  # kilometres an hour
DETOUR = 1.3  # metres walked for a metre of straight line
