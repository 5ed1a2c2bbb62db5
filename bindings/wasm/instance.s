# What each export calls first and last. rattle-link adds the same to a module with its own memory. Instances that share
# a memory have a flag each, which lies in no memory: after a trap, which may have left half of a write, an instance
# traps at every call.
	.globaltype	is_in_call, i32
is_in_call:

# Whether a call was begun and did not end.
	.globl	__rattle_enter
	.type	__rattle_enter,@function
__rattle_enter:
	.functype	__rattle_enter () -> (i32)
	global.get	is_in_call
	i32.const	1
	global.set	is_in_call
	end_function

	.globl	__rattle_leave
	.type	__rattle_leave,@function
__rattle_leave:
	.functype	__rattle_leave () -> ()
	i32.const	0
	global.set	is_in_call
	end_function

	.globl	__rattle_trap
	.type	__rattle_trap,@function
__rattle_trap:
	.functype	__rattle_trap () -> ()
	unreachable
	end_function
