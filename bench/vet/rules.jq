# The rules of crates/vet/data/rules.
select(
  (.age >= 18)
  and ((.name | startswith("A")) or .name == "Zoe")
  and (has("seat") and (.seat != 13 and .seat != 17))
  and all(.lines[]; .quantity >= 1 and (.sku | test("^[A-Z]{3}$")))
  | not)
