"""The numbers of the format's document that a text is held to, and the text tool's own."""

# The document's. Its limit of 192 children needs no look: a sheet has fewer children than patterns.
TYPES_MOST = 64
CONSTRUCTORS_MOST = 128
ENTRIES_MOST = 256
PATTERNS_MOST = 192
CLAUSES_MOST = 32
PATTERN_DEPTH_MOST = 12
SHEET_BYTES_MOST = 8192
RECORDS_MOST = 512
RECORD_DEPTH_MOST = 32
PANEL_BYTES_MOST = 16384
LITERAL_BYTES_MOST = 64
NAME_NUMBER_MOST = 65535

# The tool's own, asked before a text is read and before its reading could nest too deeply.
TEXT_BYTES_MOST = 1 << 20
FORM_DEPTH_MOST = TYPES_MOST

# How much is told: letters of one word, faults of one text, panels of one text.
WORD_TOLD_MOST = 40
FAULTS_TOLD_MOST = 40
PANELS_TOLD_MOST = 12
