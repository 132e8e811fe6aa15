-- Equality is transitive.
assert ?x = ?y; assert ?y = ?z; assert ?x <> ?z;
