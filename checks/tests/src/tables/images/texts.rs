//! What is said of spoilt images of a table for one pattern, in the order of an image's parts.

/// Dense images that are cut.
pub(super) const CUT_DENSE: &str = "\
could not find NUL terminated label at start of serialized object
could not find properly sized label at start of serialized object
buffer is too small to read endianness check
buffer is too small to read version
buffer is too small to read unused space
buffer is too small to read flags
buffer is too small to read state length
buffer is too small to read stride2
buffer is too small to read byte classes
buffer is too small to read transition table
buffer is too small to read start kind
buffer is too small to read start contexts
buffer is too small to read number of start contexts
buffer is too small to read number of patterns with starts
buffer is too small to read universal unanchored start
buffer is too small to read universal anchored start
buffer is too small to read start ids
buffer is too small to read match state length
buffer is too small to read match slices
buffer is too small to read pattern length
buffer is too small to read pattern ID length
buffer is too small to read pattern IDs
buffer is too small to read special ids
buffer is too small to read number of accelerators
buffer is too small to read accelerators
buffer is too small to read quit set
";

/// Dense images of which a byte is inverted.
pub(super) const INVERTED_DENSE: &str = "\
label mismatch
read
endianness mismatch
unsupported version
buffer is too small to read transition table
the stride doesn't fit the byte classes
byte classes don't rise by 0 or 1 from 0
the parts don't fit each other
unknown start kind
unknown start context
another number of start contexts
too many patterns with starts
buffer is too small to read start ids
failed to read state ID for universal unanchored start
failed to read state ID for universal anchored start
buffer is too small to read match slices
too many patterns
buffer is too small to read pattern IDs
special ids past the rows
failed to read state ID for greatest special and quit id
special ids aren't in order
failed to read state ID for match ids
failed to read state ID for accelerated ids
failed to read state ID for start ids
buffer is too small to read accelerators
";

/// Sparse images that are cut.
pub(super) const CUT_SPARSE: &str = "\
could not find NUL terminated label at start of serialized object
could not find properly sized label at start of serialized object
buffer is too small to read endianness check
buffer is too small to read version
buffer is too small to read unused space
buffer is too small to read flags
buffer is too small to read state length
buffer is too small to read pattern length
buffer is too small to read byte classes
buffer is too small to read length of the rows
buffer is too small to read rows
buffer is too small to read start kind
buffer is too small to read start contexts
buffer is too small to read number of start contexts
buffer is too small to read number of patterns with starts
buffer is too small to read universal unanchored start
buffer is too small to read universal anchored start
buffer is too small to read start ids
buffer is too small to read special ids
buffer is too small to read quit set
";

/// Sparse images of which a byte is inverted.
pub(super) const INVERTED_SPARSE: &str = "\
label mismatch
read
endianness mismatch
unsupported version
another number of rows
too many patterns
byte classes don't rise by 0 or 1 from 0
unknown start kind
buffer is too small to read rows
buffer is too small to read ranges
another number of ranges than a row may have
ranges that don't rise over byte classes
buffer is too small to read next row
failed to read state ID for next row
another number of needles than a row may have
buffer is too small to read patterns
a match row of an unknown pattern
failed to read pattern ID for pattern of a match row
the parts don't fit each other
unknown start context
another number of start contexts
too many patterns with starts
buffer is too small to read start ids
failed to read state ID for universal unanchored start
failed to read state ID for universal anchored start
special ids past the rows
failed to read state ID for greatest special and quit id
special ids aren't in order
failed to read state ID for match ids
failed to read state ID for accelerated ids
failed to read state ID for start ids
";
