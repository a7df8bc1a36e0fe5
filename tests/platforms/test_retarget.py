"""What platforms/retarget.mjs makes of the text of a module, and what it refuses."""

import pytest
from tried import ROOT, ended, needs

WIDE = (
    'target datalayout ='
    ' "e-m:e-p270:32:32-p271:32:32-p272:64:64-i64:64-i128:128-f80:128-n8:16:32:64-S128"'
)
TRIPLE = 'target triple = "x86_64-unknown-linux-gnu"'
LAYOUTS = {
    'linux': 'target datalayout = "L"\ntarget triple = "aarch64-unknown-linux-gnu"\n',
    'windows': 'target datalayout = "W"\ntarget triple = "x86_64-w64-windows-gnu"\n',
}
HEAD = 'define noundef i32 @nonobench_f(ptr noundef %a, i1 noundef zeroext %b) #0 {'
OWN = 'define internal noundef i32 @own(i1 noundef zeroext %b) #0 {'
BODY = 'start:\n  %r = call i32 @own(i1 zeroext %b)\n  ret i32 %r\n}'
FRAME = '"frame-pointer"="all"'
PROBES = '"probe-stack"="inline-asm" "stack-probe-size"="3072"'
MODULE = f"""{WIDE}
{TRIPLE}

@static.0 = private unnamed_addr constant [1 x i8] zeroinitializer, align 1

{HEAD}
{BODY}

{OWN}
start:
  ret i32 1
}}

declare {{ i64, i64 }} @rattle_alloc(i64 noundef, i64 noundef) #1

attributes #0 = {{ nounwind {FRAME} {PROBES} "target-cpu"="x86-64-v2" "target-features"="+popcnt" }}
attributes #1 = {{ nounwind }}
"""


def retargeted(folder, system, text):
    """How the script ends, and the lines that it makes."""
    needs('node')
    (folder / 'wide.ll').write_text(text)
    (folder / 'layout.ll').write_text(f'; ModuleID\n{LAYOUTS[system]}')
    run = ended(
        [
            'node',
            ROOT / 'platforms' / 'retarget.mjs',
            *(folder / f'{name}.ll' for name in ('wide', 'layout', 'to')),
        ]
    )
    return run, (folder / 'to.ll').read_text().split('\n') if run.status == 0 else []


# What the attributes of functions become.
BECOMES = {
    'linux': f'nounwind {FRAME} {PROBES}',
    'windows': f'nounwind uwtable {FRAME}',
}


@pytest.mark.parametrize('system', BECOMES)
def test_what_it_becomes(system, tmp_path):
    """What is exported takes a bool of any upper bits."""
    run, lines = retargeted(tmp_path, system, MODULE)
    assert run.status == 0, run
    wanted = (
        MODULE.replace(f'{WIDE}\n{TRIPLE}\n', LAYOUTS[system])
        .replace(HEAD, HEAD.replace(' zeroext', ''))
        .split('\n')
    )
    wanted[-3] = f'attributes #0 = {{ {BECOMES[system]} }}'
    assert lines == wanted


# A program, and what it becomes.
PROGRAM = f"""{WIDE}
{TRIPLE}

define internal i32 @"nonobench::main+start"() #0 {{
start:
  %r = call i32 @close(i32 0)
  ret i32 %r
}}

define i32 @main() #0 {{
start:
  %r0 = call i64 @__sysv_signal(i32 13, i64 1)
  %r1 = call ptr @__x86_get_cpuid_feature_leaf(i32 0)
  br label %run

run:                                              ; preds = %start
  %r16 = call i32 @"nonobench::main+start"()
  ret i32 %r16
}}

declare i64 @__sysv_signal(i32, i64) #0
declare ptr @__x86_get_cpuid_feature_leaf(i32) #0
declare i64 @__write(i32, ptr, i64) #0
declare noundef i32 @close(i32 noundef) #0

attributes #0 = {{ nounwind }}
"""
BECOMES_OF_IT = f"""{LAYOUTS['linux']}
define internal i32 @"nonobench::main+start"() #0 {{
start:
  %r = call i32 @system_close(i32 0)
  ret i32 %r
}}

define i32 @nonobench_main() #0 {{
start:
  %status = call i32 @"nonobench::main+start"()
  ret i32 %status
}}

declare noundef i32 @system_close(i32 noundef) #0

attributes #0 = {{ nounwind }}
"""


def test_what_a_program_becomes(tmp_path):
    run, lines = retargeted(tmp_path, 'linux', PROGRAM)
    assert run.status == 0, run
    assert '\n'.join(lines) == BECOMES_OF_IT


# What is refused: a text of the module, and what stands there instead.
REFUSED = {
    'another layout': (WIDE, WIDE.replace('S128', 'S64')),
    'another triple': (TRIPLE, 'target triple = "x86_64-pc-windows-msvc"'),
    'assembly': ('  ret i32 %r', '  call void asm sideeffect "nop", ""()\n  ret i32 %r'),
    'a call of the system': ('declare {', 'declare i32 @unlink(ptr)\ndeclare {'),
    'an intrinsic of a processor': ('declare {', 'declare i64 @llvm.x86.rdtsc()\ndeclare {'),
    'a name behind another': ('@rattle_alloc(', '@rattle_alloc_zeroed('),
    'a number of one processor': ('  ret i32 %r', '  %x = alloca x86_fp80, align 16\n  ret i32 %r'),
    'another line outside of functions': ('@static.0', 'module asm "nop"\n@static.0'),
}


@pytest.mark.parametrize('what', REFUSED)
def test_what_is_refused(what, tmp_path):
    assert MODULE.count(REFUSED[what][0]) == 1
    run, _ = retargeted(tmp_path, 'linux', MODULE.replace(*REFUSED[what]))
    assert run.status == 1
    assert b'has a form that is not known' in run.said
