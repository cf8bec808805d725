"""Files at the limits of docs/FORMAT.md and at the edges of its words: `EDGES`, the files' bytes."""


def names(count):
    return 'nodes\n' + ''.join(f'variable n{i} -\n' for i in range(count))


def labels(count):
    return names(count - 1) + 'instructions\nLABEL - - @last - none - -\n'


def nodes(count):
    return 'nodes\n' + 'pi - -\n' * count


WORDS = '''
word 1
nodes / word
nodes / word 0 0 0 / variable a -
regions / a BIT 18446744073709551615
regions / a BIT 18446744073709551616
regions / a BIT -9223372036854775808
regions / a BIT -9223372036854775809
regions / a BIT 0x0000000000000000000001
regions / a BIT 0x10000000000000000
regions / a BIT 0X1
regions / a 4 1
regions / a none 1
regions / Position 1 2
Regions
externs / f none 0 0
externs / f - 0 0
parameters / p mutable fixed BIT -
parameters / p mutable scalar BIT 3
parameters / p mutable 3 BIT -
nodes / number 999999999999999. .000000000000001
nodes / number 1000000000000000. 0.0
nodes / number -0.0 -.5
nodes / number 1e5 0.0
nodes / number 1.5E-7 -2e+3
nodes / number 1e22 1e-22
nodes / number 1e23 0.0
nodes / number 1.5e-22 0.0
nodes / number 0.5e1.5 0.0
nodes / number 1e 0.0
nodes / number e5 0.0
nodes / number 0x1e5 0.0
nodes / number . 0.0
nodes / number 0x7FF0000000000001 0x0
nodes / 7 - 1
nodes / 7 a -
arguments / 3 - 1
instructions / 17 1 - - - 2 - - 5
instructions / 17 1 a - - - - - -
instructions / 16 1 - - - 2 - - 5
instructions / 16 1 a - - - - - -
instructions / 16 - a 0 - - reference b 0
instructions / 16 3 1 2 4 5 9 6 7
instructions / 16 0 1 2 0 0 2 3 4
instructions / CONVERT a 0 - - reference b 0
instructions / CONVERT a 0 - - reference a 0
instructions / CONVERT a - - - reference b 0
instructions / CONVERT a 0 - - reference b -
instructions / CONVERT a 0 b 0 reference b 0
instructions / CONVERT a 0 1 2 reference b 0
instructions / CONVERT a 0 - - integer 7 -
instructions / CONVERT a 0 - - real 1.5 -
instructions / CONVERT a 0 - - none - -
instructions / CONVERT a 0 - - reference 7 0
instructions / CONVERT 7 0 - - reference 8 0
instructions / CONVERT @a 0 - - reference b 0
instructions / CONVERT a 0 - - reference @b 0
instructions / CONVERT a 0 - - 4 1 2
instructions / CONVERT a 0 - - reference b
instructions / CONVERT a 0 reference b 0
instructions / CONVERT a 0 - - reference b 0 0
instructions / Convert a 0 - - reference b 0
instructions / CONVERT convert 0 - - reference b 0
instructions / 11 1 - - - 2 - - 5
instructions / 11 1 a - - - - - -
instructions / 11 - - - @a - - - -
instructions / 11 - - - @a - none - -
instructions / 11 - - - 0 - 3 - -
instructions / 14 3 1 2 @7 5 9 6 4
instructions / 15 0 0 0 0 0 3 0 0
instructions / 15 0 0 0 @0 0 3 0 0
instructions / JUMP - - @a - none - -
instructions / JUMP - - a - none - -
instructions / JUMP - - - - none - -
instructions / JUMP - - @a 0 none - -
instructions / JUMP - - @a @a none - -
instructions / JUMP - - @a - reference @a 0
instructions / JUMP @a - @a - none - -
instructions / JUMP a 0 @a - none - -
instructions / JUMP @a - - - none - -
instructions / JUMP-WHEN a 0 @a - none - -
instructions / JUMP-WHEN a 0 a - none - -
instructions / JUMP-WHEN @a 0 @a - none - -
instructions / JUMP-WHEN a - @a - none - -
instructions / JUMP-WHEN @b - a 0 none - -
instructions / JUMP-WHEN b 0 @a - none - - / JUMP-UNLESS a 0 @b - none - -
instructions / JUMP-UNLESS a 0 @a - none - -
instructions / JUMP-UNLESS a 0 @a 0 none - -
instructions / JUMP-UNLESS a - @a 0 none - -
instructions / LABEL - - @7 5 none - -
instructions / LABEL - - @-1 - none - -
instructions / LABEL - - @0xFF - none - -
instructions / LABEL - - @18446744073709551615 - none - -
instructions / LABEL - - @18446744073709551616 - none - -
instructions / LABEL - - @0x - none - -
instructions / LABEL - - @1.5 - none - -
instructions / LABEL - - @ - none - -
instructions / LABEL - - @ a - none - -
instructions / LABEL - - @- - none - -
instructions / LABEL - - @@a - none - -
instructions / LABEL - - a@ - none - -
instructions / LABEL - - @a@b - none - -
instructions / LABEL - - @a# - none - -
instructions / LABEL - - @# - none - -
instructions / LABEL - - @a-b - none - -
instructions / LABEL - - @_ - none - -
instructions / LABEL - - @7a - none - -
instructions / LABEL - - @label - none - -
instructions / LABEL - - @Position - none - -
instructions / LABEL - - @A - none - - / JUMP - - @a - none - -
instructions / LABEL - - @a - none - - / LABEL - - @a - none - -
instructions / LABEL @a
instructions / @a LABEL - - - none - -
instructions / HALT - - - - none - -
instructions / HALT - - @a - none - -
instructions / HALT - - a - none - -
instructions / NOP - - @a - none - -
instructions / MOVE @a 0 - - integer 1 -
instructions / MOVE a @0 - - integer 1 -
instructions / LOAD a 0 @a - reference a 0
instructions / CALL @f 0 0 - none - -
regions / a BIT 1 / instructions / LABEL - - @b - none - - / JUMP-WHEN a 0 @a - none - -
regions / a BIT 1 / instructions / LABEL - - @7 - none - -
regions / 7 BIT 1 / instructions / LABEL - - @a - none - -
regions / 7 BIT 1 / instructions / LABEL - - @7 - none - -
instructions / LABEL - - @7 - none - - / word 1
instructions / LABEL - - @a - none - - / word 1
instructions / word 14 0 0 0 7 0 3 0 0 / JUMP - - @7 - none - -
instructions / word 14 0 0 0 @7 0 3 0 0
instructions / word 14 0 0 0 7 0 3 0 0 / JUMP - - @a - none - -
regions / @a BIT 1
externs / @f none 0 0
parameters / @p mutable scalar BIT -
nodes / variable @a -
nodes / address @a 0
arguments / identifier @a -
@regions
regions / @7 BIT 1
regions / Halt BIT 1
regions / Convert BIT 1
regions / converted BIT 1
regions / jump-when BIT 1
instructions / 4 - 0 0 - - integer 5 -
instructions / 0 - 0 0 - - integer 5 -
instructions / 0 ADD 0 0 - - integer 5 -
instructions / MOVE 0 0 - - 9 1 2
instructions / STORE a 0 a 0 none - -
instructions / LOAD a 0 a - reference a -
cell 0 REAL 2
cell 0 none 2
cell 0 9 2
entry 0 1 2 -
position 0
position 0 1
position 0 1 2
position 0 1 2 3
position 0 1 -
position @0 1 2
position 0x1 -1 18446744073709551615
'''

EDGES = [text.encode() for text in [
    names(1024), names(1025), labels(1024), labels(1025), nodes(2062), nodes(2063), '#' * 65535, '#' * 65536,
    'nodes\nword' + ' 1' * 16, 'nodes\nword' + ' 1' * 17,
    *(line.replace(' / ', '\n') for line in WORDS.strip().split('\n')),
]]
