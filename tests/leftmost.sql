-- The leftmost fault is told.
assert 1 = 2; select 99999999999999999999, 'open