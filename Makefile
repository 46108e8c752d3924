.PHONY: run test faces compare bench finder

run:
	@bash scripts/runnable replay replay_tables judge summary
	@target/run/replay sessions/a-to-n.trace >target/a-to-n.trace
	@cat target/a-to-n.trace
	@bash scripts/verdict target/a-to-n.trace

test:
	@bash .ci/run

faces:
	@bash scripts/faces

compare:
	@bash scripts/runnable replay replay_tables
	@bash compare/run target/run/replay target/run/replay_tables
	@bash compare/scale $(SESSIONS) target/run/replay target/run/replay_tables
	@bash scripts/library finder
	@bash compare/lockstep $(SESSIONS)
	@bash compare/managers $(CALLS)

bench:
	@bash bench/run

finder:
	@CC="$(CC)" CXX="$(CXX)" RUN="$(RUN)" bash finder/run
