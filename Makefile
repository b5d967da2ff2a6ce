.PHONY: demo test bench outside

# A planner in C expands a rule, values it over six plans, translates it, fills the labels and judges; it forges a
# label, and prints all rules decoded. The printing program prints the rules of a formula.
demo:
	bash examples/run

# The gate.
test:
	bash .ci/run

# Speed of each service beside peers in C, how its time grows, the stack that the deepest formulas take, and the stack
# frames of the library's functions.
bench:
	bash bench/run

# The translation in a real solver: clingo counts the plans of source 004's elevator with our rules, beside that paper's
# Table 3.
outside:
	bash outside/run
