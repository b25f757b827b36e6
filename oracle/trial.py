#!/usr/bin/env python3
"""trial.py NAME: makes the sheet NAME from a fixed seed, runs the oracle's trace of the unchanged Rust on it, and writes
crates/wrong/sheets/NAME.tsv and crates/wrong/proofs/NAME.antt: every buffer after every job as f32 bits, and one theorem by
computation for each job and channel. The sheet itself, `low8` for Low8, stands in crates/wrong/specs/Sheet.antt. Run it in the repository's root, with ORACLE set to the oracle's program `trace`."""
import os, random, struct, subprocess, sys

ORACLE = os.environ.get('ORACLE', 'oracle/target/release/trace')


def bits(x):
    return struct.unpack('<I', struct.pack('<f', x))[0]


def sheet(name):
    r = random.Random(name)

    def channel(w, h, across, down, top, dense, most):
        table = [r.randint(1, top) for _ in range(64)]
        blocks = [[r.randint(-most, most) if r.random() < dense else 0 for _ in range(64)] for _ in range(w * h // 64)]
        return dict(w=w, h=h, across=across, down=down, table=table, blocks=blocks)

    # full sides, iterations, smoothing weight, data weights, channels
    return {
        'One8': lambda: (8, 8, 2, 0.7, [0.3], [channel(8, 8, 1, 1, 24, 0.4, 9)]),
        'Low8': lambda: (8, 8, 2, 0.6, [0.02], [channel(8, 8, 1, 1, 2, 0.15, 1)]),
        'Wide16': lambda: (16, 8, 1, 1.5, [0.0], [channel(16, 8, 1, 1, 255, 0.3, 5)]),
        'Twice16': lambda: (16, 8, 2, 0.25, [2.0], [channel(8, 8, 1, 1, 24, 0.5, 7)]),
        'Part24': lambda: (24, 16, 2, 0.01, [0.001], [channel(8, 8, 2, 1, 24, 0.5, 20)]),
        'Third24': lambda: (24, 8, 1, 0.3, [0.1], [channel(8, 8, 3, 1, 24, 0.5, 9)]),
        'JointTall': lambda: (8, 16, 2, 0.9, [0.1, 0.0, 0.5],
                              [channel(8, 16, 1, 1, 24, 0.3, 9), channel(8, 8, 1, 2, 24, 0.5, 9), channel(8, 8, 1, 1, 255, 0.3, 4)]),
        'JointWide': lambda: (16, 8, 1, 0.3, [0.1, 0.2, 0.5],
                              [channel(16, 8, 1, 1, 24, 0.3, 9), channel(8, 8, 2, 1, 24, 0.5, 9), channel(8, 8, 1, 1, 255, 0.3, 4)]),
        'Blown8': lambda: (8, 8, 1, 1.0, [2.0 ** 127], [channel(8, 8, 1, 1, 24, 0.4, 9)]),
    }[name]()


def text(s):
    W, H, N, smoothing, weights, channels = s
    word = lambda x: 'h%08x' % bits(x)
    three = lambda xs: [word(x) for x in (xs + [0.0, 0.0])[:3]]
    lines = [['S', W, H, W, H, len(channels), 'j', N, 0, 0] + three([smoothing]) + three(weights)]
    for c in channels:
        lines.append(['C', c['w'], c['h'], c['across'], c['down']] + c['table'])
        lines += [['B'] + b for b in c['blocks']]
    return ''.join('\t'.join(map(str, l)) + '\n' for l in lines + [['E']])


NAMES = ['plane', 'prior', 'gradient', 'across', 'down', 'saved']


def trace(t):
    out = subprocess.run([ORACLE, '--trace'], input=t.encode(), stdout=subprocess.PIPE, check=True).stdout.decode().split('\n')
    buffers, marks, constants = {}, {}, {}
    for i, l in enumerate(out):
        f = l.split('\t')
        if f[0] == 'K':
            constants[int(f[2]) - 1] = [int(x, 16) for x in f[3:]]
        if f[0] == 'J':
            c, p = int(f[4]), int(f[5])
            marks[p, c] = int(f[6])
            buffers[p, c] = [[int(x, 16) for x in out[i + 1 + k].split('\t')[1:]] for k in range(6)]
    return buffers, marks, constants


# modules and the names that are taken from them; those of UNFOLD are opened to compute
USES = {
    'lib.Count': 'count_trailing_zeros',
    'lib.Ieee': 'add sub mul div sum round units odd size span climb of_bits of_fields neg ne eq lt of_int',
    'Rattle.fold.specs.Fold': 'upto',
    'Rattle.float.specs.Ops': 'mul_add fused square product half midpoint isqrt halves root clamp',
    'Rattle.utils.specs.Blocks': 'from_blocks to_blocks',
    'Rattle.utils.specs.Dct': 'on_line idct8 dct8 idct8x8 dct8x8',
    'Rattle.utils.specs.Auxiliary': 'upsample_pixels',
    'Rattle.interval.specs.Interval': 'lowest highest dequantised mid',
    'Rattle.steps.specs.Solve': 'next_term term_of constants pushed',
    'Rattle.steps.specs.Step': 'data_alpha gradient_norm moved_by moved',
    'Rattle.gradients.specs.Tv': 'difference bump bump_unless tv_differences_at tv_differences g_norm_of tv_channel_derivatives tv_derivatives store tv_gradient_px tv_alpha tv_gradient',
    'Rattle.gradients.specs.Tgv': 'tgv_differences_at tgv_differences g2_norm_of tgv_beside tgv_up_down tgv_corners tgv_channel_derivatives tgv_derivatives tgv_gradient_px tgv_alpha tgv_gradient',
    'Rattle.gradients.specs.Blend': 'blended',
    'Rattle.start.specs.Coef': 'dequantise image_block image_data init_dct_target',
    'Rattle.start.specs.Auxiliary': 'init_pixels aux_init',
    'Rattle.fidelity.specs.DctGradient': 'cosb_of cosbs_of spread spread_block gradient_block dct_gradient data_gradient',
    'Rattle.projection.specs.Projection': 'mean_of split_at split clamp_at clamp_block clamped keep onto_box back project_full project_means project_onto_box',
    'Rattle.projection.specs.Blown': 'is_blown',
    'Rattle.work.specs.Work': 'pushing data_job blending moving projecting',
}
OTHER = '''use mathlib.Core.Path.{◌≡◌, refl}
use mathlib.Core.Bool.{false}
use mathlib.Core.List.{List, [], ◌∷◌, map}
use Rattle.steps.specs.declared.solve.Constants.{Constants}
use Rattle.start.specs.declared.coef.Reorder.TheVariants.{Each}
use Rattle.start.specs.Buffers.{Buffers}
use Rattle.start.specs.Coef.{Coef, coef, change}
use Rattle.work.specs.Work.{starting}
use Rattle.calls.specs.Jobs.{channel_blown}
use lib.Ieee.{Float, binary32}'''
UNFOLD = ' '.join(USES.values()).replace('mean_of', 'mean_of change')


def items(xs):
    return ' ∷ '.join(map(str, xs)) + ' ∷ []'


def whole(n):
    return 'pos %d' % n if n >= 0 else 'negsuc %d' % (-n - 1)


def main(name):
    s = sheet(name)
    W, H, N, smoothing, weights, channels = s
    t = text(s)
    with open('crates/wrong/sheets/%s.tsv' % name, 'w') as f:
        f.write(t)
    buffers, marks, constants = trace(t)
    n = len(channels)
    last = max(p for p, c in buffers)
    o = ['-- Made by oracle/trial.py: the sheet sheets/%s.tsv, and the bits that the unchanged Rust has after each job.' % name, OTHER]
    o += ['use %s.{%s}' % (m, ', '.join(v.split())) for m, v in USES.items()]
    o.append('')
    given = name.lower()
    o.insert(-1, 'use Rattle.wrong.specs.Sheet.{%s}' % given)
    for c, k in enumerate(channels):  # of one channel: its levels and quantisers are all that the sheet is given
        o.append('unfoldable pub c%d : Coef\nc%d = coef (record { width = %d; height = %d; horizontal = %d; vertical = %d }) %s.levels %s.tables\n' % (
            c, c, k['w'], k['h'], k['across'], k['down'], given, given))
    for step, k in sorted(constants.items()):
        values = '; '.join('%s = of_bits binary32 %d' % (f, v) for f, v in zip(['term', 'factor', 'step_size', 'second'], k))
        o.append('unfoldable pub k%d : Constants\nk%d = record { %s }\n' % (step, step, values))
        o.append('pub constants_%d : constants %d %d %d (of_bits binary32 %d) %d ≡ k%d\nunfolding k%d %s\nconstants_%d = refl\n' % (
            step, W, H, N, bits(smoothing), step, step, step, UNFOLD, step))
    lists = {}

    def listed(xs):  # a buffer that did not change is written once
        key = tuple(xs)
        if key not in lists:
            lists[key] = 'l%d' % len(lists)
            o.append('unfoldable pub %s : List Float\n%s = map (of_bits binary32) (%s)\n' % (lists[key], lists[key], items(xs)))
        return lists[key]

    def record(name, values):
        o.append('unfoldable pub %s : Buffers\n%s = record { %s }\n' % (name, name, '; '.join('%s = %s' % v for v in zip(NAMES, values))))

    names = {}
    for p in range(last + 1):
        for c in range(n):
            names[p, c] = [listed(xs) for xs in buffers[p, c]]
            record('b%d_%d' % (p, c), names[p, c])
        if n > 1 and (p % 5 in (2, 3)):  # around blend: the flat buffers of all channels
            record('b%d' % p, [' ++ ('.join(names[p, c][k] for c in range(n)) + ')' * (n - 1) for k in range(6)])
    joined = lambda p: 'b%d' % p if n > 1 else 'b%d_0' % p

    def theorem(label, left, right, opened):
        used = sorted({l for b in opened for l in b[1]}, key=lambda l: int(l[1:]))
        o.append('pub %s : %s ≡ %s\nunfolding %s %s %s\n%s = refl\n' % (label, left, right, ' '.join(b[0] for b in opened), ' '.join(used), UNFOLD, label))

    for p in range(last + 1):
        step, job = (p - 1) // 5, (p - 1) % 5
        if p and job == 2:
            before = [(joined(p - 1), sum((names[p - 1, c] for c in range(n)), []))]
            after = [(joined(p), sum((names[p, c] for c in range(n)), []))]
            theorem('blend_%d' % p, 'blending %d %d %d (λ c. false) k%d %s' % (W, H, n, step, joined(p - 1)), joined(p), before + after + [('k%d' % step, [])])
            continue
        for c in range(n):
            b, d = 'b%d_%d' % (p - 1, c), 'b%d_%d' % (p, c)
            opened = [(given, []), ('c%d' % c, []), (d, names[p, c])] + ([(b, names[p - 1, c]), ('k%d' % step, [])] if p else [])
            left = ['starting Each c%d %d %d' % (c, W, H)] if p == 0 else {
                0: ['pushing k%d %s' % (step, b)],
                1: ['data_job c%d %d %d (of_bits binary32 %d) %s' % (c, W, H, bits(weights[c]), b)],
                3: ['moving k%d %s' % (step, b)],
                4: ['projecting c%d %d %d %s' % (c, W, H, b)],
            }[job]
            label = (['start'] if p == 0 else [['push', 'data', 'blend', 'move', 'project'][job]])[0] + '_%d_%d' % (p, c)
            theorem(label, left[0], d, opened)
            if p and job == 4:
                theorem('mark_%d_%d' % (p, c), 'channel_blown %s %d %s' % (given, c, d), 'true' if marks[p, c] else 'false', [(given, []), (d, names[p, c])])
    with open('crates/wrong/proofs/%s.antt' % name, 'w') as f:
        f.write('\n'.join(o))
    print(name, 'positions 0 to %d' % last, 'channels', n, 'marks', sorted(k for k in marks if marks[k]))


for arg in sys.argv[1:]:
    main(arg)
