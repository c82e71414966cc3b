"""What a run of bench/run has to keep to: each the most that a time, a ratio of two times, or a memory is to be."""
MOST_TO_PLAIN = 1.2  # the time over a request, to the plain program's
MOST_TO_PLAIN_SMALL = 1  # the same where the request has at most 2^16 bytes
MOST_DOUBLED = 2.3  # the time over an input, to that over one of half the size
MOST_TO_READING_AND_HASHING = 1.3  # the time over a log's own entries, to that of reading and of hashing them
MOST_OF_HEADS = 1.5  # the time of the roots of a list's beginnings, one for each of 256 heads, to that of hashing the list
MOST_BEYOND_START = 1.0  # the milliseconds that a small request takes beyond those of a process that reads none
MOST_TO_CHECKS = 1.3  # the time of a gate, to that of only reading and verifying its bundles
MOST_OF_DEMO = 50  # the milliseconds of `demo` of the most entries
MOST_MEGABYTES = 500  # the peak memory over an input of 2^24 bytes, in 10^6 bytes
MOST_MEGABYTES_OF_STATEMENT = 700  # the same over a payload of which a statement's parts are copied
MOST_SECONDS = 3  # the time over an input of 2^24 bytes
MOST_SECONDS_OF_A_MILLION = 0.1  # the time over a request of a million bytes, beyond that of a process that reads none
MOST_TO_HASHING = 1.1  # the time over an artifact, to that of only hashing it
MOST_MEGABYTES_OF_ARTIFACT = 20  # the peak memory over an artifact, however long
MOST_OF_TWICE_AS_MANY = 4.6  # the time over a pool, to that over one of half as many certificates of each kind
MOST_TO_HASHES = 1.05  # the time of a check of inclusion, to that of only its hashes
