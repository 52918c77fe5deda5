"""The version and the limits of the frames, of events and clients (docs/PROTOCOL.md), and of greeting again."""

VERSION = 2
MOST_TEXT = 4_095                       # bytes of UTF-8 in a text
MOST_FIELDS = 32                        # fields of a tuple, and patterns of a template, beside the tag
LEAST_INTEGER, MOST_INTEGER = -(1 << 63), (1 << 63) - 1
MOST_FRAME = 262_144                    # bytes of a frame after its length
FRAME_SIZE, TEXT_SIZE, COUNT_SIZE = 4, 2, 1     # bytes of the length of a frame, of the length of a text, of a count of fields
NUMBER_LIMIT = 1 << 63                  # numbers of messages, tickets and the count of outs stay below it
MOST_CLIENT = (1 << 32) - 1
MOST_SERVERS = 16
MOST_DEPTH = 64                         # choices, labels and nacks above a leaf of an event
MOST_BASES = 256                        # leaves of an event
MOST_ASKS = 64                          # leaves of an event that are inputs or reads
MOST_TOGETHER = 64                      # messages with numbers that are under way to a server at once, of `out_many`, `take_many` and `purge`
MOST_TIME = MOST_LABEL = (1 << 64) - 1  # milliseconds of an alarm; labels and nack numbers
PACKED_FIELDS = 30                      # texts that `pack` makes, if nothing else is said
PATIENCE = 10.0                         # seconds for which a server may be away or owe an answer, if nothing else is said
BUSY_PATIENCE = 2.0                     # seconds, at most, for which a number may be in use by a connection that has ended
RENEWAL = 0.5                           # seconds between two renewals of what is held while a call waits
SHORTEST_PAUSE, LONGEST_PAUSE = 0.001, 0.05     # seconds between two greetings: the first pause, which is doubled up to the longest one

REFUSALS = {1: "Version", 2: "Known", 3: "Busy", 4: "Old", 5: "Gap", 6: "Full", 7: "TooManyClients", 8: "Down", 9: "Malformed", 10: "TooManyAsks",
            11: "Left", 12: "NoHello"}
