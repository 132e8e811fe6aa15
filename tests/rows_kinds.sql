-- A number is no text.
assert 1 = '1'
