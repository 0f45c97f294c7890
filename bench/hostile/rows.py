"""The rows of the tables: each family with the command that it is hardest for, its sizes, and why it may grow faster."""
import further
import texts


class Row:
    """A family of documents: the least of its three sizes, each twice the one before, and the command that it tries."""

    def __init__(self, family, size, words, reason=None):
        self.family, self.size, self.words, self.reason = family, size, words.split(), reason
        self.name = family.__name__

    def sizes(self):
        return [self.size, 2 * self.size, 4 * self.size]


# Where a size stands for a product of what the text has, as statements times the nodes of a claim, the product is what
# has to be shown: such a row grows with one of the two, and may pass the limits of a short text.
PRODUCT = "the obligations are a product of two sizes"

ROWS = [
    Row(texts.sum_in_itself, 5000, "check"),
    Row(texts.sum_in_statements, 128, "check", PRODUCT),
    Row(texts.claim_over_statements, 512, "check", PRODUCT),
    Row(texts.wide_claim_over_statements, 256, "check", PRODUCT),
    Row(texts.used_often, 1000, "prove 1000000"),
    Row(texts.always_names, 1000, "check"),
    Row(texts.unions_of_large, 100, "check"),
    Row(texts.unions_of_many, 100, "check"),
    Row(texts.chain_of_unions, 400, "check"),
    Row(texts.writes_to_one, 4000, "check"),
    Row(texts.open_writes_to_one, 4000, "check"),
    Row(texts.reads_within_reads, 2700, "check"),
    Row(texts.pairs_of_facts, 110, "prove 1000000"),
    Row(texts.pigeons, 5, "prove 1000000", "what has to be shown is hard for sums and cases"),
    Row(texts.steps_from_steps, 4000, "prove 1000000"),
    Row(texts.many_names, 1000, "check"),
    Row(texts.deep_sum, 8000, "check"),
    Row(texts.deep_and, 8000, "check"),
    Row(texts.deep_signs, 8000, "prove 1000000"),
    Row(texts.flat_sum, 8000, "check"),
    Row(further.range_with_remainder, 1000000, "check"),
    Row(further.range_with_formula, 3200, "check"),
    Row(further.invariants_under, 10, "check"),
    Row(further.nested_ranges, 45, "check"),
    Row(further.claims_over_statements, 2, "check"),
    Row(further.defined_often, 100, "check"),
    Row(further.large_claims, 125, "check"),
    Row(further.places_and_cases, 60, "watch"),
    Row(further.places_and_large_cases, 500, "watch"),
    Row(further.layers, 100, "check"),
    Row(further.two_remainders, 250000, "prove 1000000"),
    Row(further.long_schedule, 100000, "watch"),
]
