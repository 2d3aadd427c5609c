# lesson: builds the programs `bench` and `wavfile`, plays a lesson and leaves its sound. remark: builds the program `remark` and asks
# it what of a sitting has to be marked again after a change of voice 3; leaves the sound of both sittings. class: builds the program
# `bench` and renders a class of thirty. c: builds the library for C, and links and runs an example. test: the gate.
.PHONY: lesson remark class c test
lesson:
	tools/programs bench wavfile
	@tools/lesson/play lessons/voices.txt target/lesson || [ $$? -eq 3 ]
remark:
	tools/programs remark bench wavfile
	@tools/lesson/play lessons/final.txt target/remark/old >/dev/null || [ $$? -eq 3 ]
	@tools/lesson/play lessons/final-voice3.txt target/remark/new >/dev/null || [ $$? -eq 3 ]
	@cp target/remark/old/ram.bin target/remark/ram.bin
	@cp target/remark/old/log.bin target/remark/old.bin
	@printf '\010' >target/remark/named.bin
	@if tools/runner; then \
	    (cd target/remark && ../../tools/runner ../bin/remark <new/log.bin) || exit 1; \
	    mv target/remark/old/out.wav target/remark/old.wav && mv target/remark/new/out.wav target/remark/new.wav || exit 1; \
	    echo "The sound of both sittings is in target/remark/old.wav and target/remark/new.wav."; \
	else \
	    echo "It is not asked: target/bin/remark is made for x86-64 alone."; \
	fi
class:
	tools/programs bench
	@rm -rf target/class
	@tools/class --make target/class
	@tools/class target/class || [ $$? -eq 3 ]
c:
	tools/programs bench wavfile
	tools/c/run
test:
	.ci/run
