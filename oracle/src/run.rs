//! A sheet's runs, job by job: document 01, "Jobs and positions". The jobs call the published functions. What stands as loops inside the published
//! `solve` and `solver_step` is copied here statement by statement, and `check` holds the planes against the published `solve`. The start with one reordering
//! (M-102) is written here too, and held against the published `solve` built with it. Levels within a range (M-105) are the published functions' levels by their half sum; only the
//! projection onto ranges is own code, held against the published one at every call. A channel that is held (M-108) keeps its buffers; the blend of the others is own code, held against the
//! published one with a plane of zeros in its place.
use crate::{
    floats::{bits64, same},
    holds,
    macros::mul_add,
    published::{each, once},
    ranges::{nearest, outside, project_onto_ranges},
    sheet::{self, Reorder},
};
use artefact::{
    AlignedF32, Aux,
    pipeline::open::{
        Coefficient, ScalarCoef, auxiliary::PixelDifference, blocks::from_blocks, dct::idct8x8, dct_gradient,
        project_onto_box, tgv_gradient, tv_gradient,
    },
};

/// What the published conversion makes of a channel, but for the image of its levels, which start alone reads.
fn without_image(c: &Coefficient) -> ScalarCoef {
    ScalarCoef {
        rounded_px_w: c.rounded_px_w,
        rounded_px_h: c.rounded_px_h,
        rounded_px_count: c.rounded_px_count,
        block_w: c.block_w,
        block_h: c.block_h,
        block_count: c.block_count,
        horizontal_samp_factor: c.horizontal_samp_factor,
        vertical_samp_factor: c.vertical_samp_factor,
        dct_coefs: c.dct_coefs.clone(),
        quant_table: c.quant_table,
        image_data: vec![],
    }
}

/// "`o` dequantises and transforms all blocks, then reorders once" (M-102), each by the published function.
fn image_once(c: &Coefficient) -> Vec<f32> {
    let mut blocks: Vec<f32> = c.dct_coefs.iter().zip(c.quant_table.iter().cycle()).map(|(d, q)| d * q).collect();
    blocks.chunks_mut(64).for_each(|block| idct8x8(block.try_into().expect("64 values")));
    let mut image = vec![0.0; blocks.len()];
    from_blocks(&blocks, &mut image, c.rounded_px_w, c.rounded_px_h, c.block_w, c.block_h);
    image
}

/// What start makes of a channel.
fn converted(own: &sheet::Channel, reorder: Reorder) -> ScalarCoef {
    let given = each::coefficient(own);
    match reorder {
        Reorder::Each => given.into(),
        Reorder::Once => ScalarCoef { image_data: image_once(&given), ..without_image(&given) },
    }
}

/// "The step constants of a sheet are four f32 values."
#[derive(Clone, Copy)]
pub struct Constants {
    pub term: f32,
    pub factor: f32,
    pub step_size: f32,
    pub second_order_weight: f32,
}

pub struct Run {
    pub w: u32,
    pub h: u32,
    pub iterations: usize,
    pub positions: Vec<usize>,
    pub marks: Vec<bool>,
    /// How many coefficients the channel's last projection moved; 0 before the first (M-104).
    pub clipped: Vec<u32>,
    /// After how many steps each channel is held (M-108).
    pub holds: Vec<usize>,
    /// What `tv_gradient` and `tgv_gradient` returned in the last blend; zeros before the first (M-103).
    pub totals: [f64; 2],
    pub auxs: Vec<Aux>,
    coefs: Vec<ScalarCoef>,
    owns: Vec<sheet::Channel>,
    reorder: Reorder,
    weight: f32,
    pweight: [f32; 3],
    term: f32,
}

/// Joint mode: one run of all channels. Separate mode: a run of each, with its own smoothing weight and iteration count, but always the
/// first data weight.
pub fn runs(sheet: &sheet::Sheet) -> Vec<Run> {
    if sheet.joint {
        return vec![Run::start(sheet, &sheet.channels, 0)];
    }
    (0..sheet.channels.len()).map(|c| Run::start(sheet, &sheet.channels[c..=c], c)).collect()
}

/// Statements of `solve` on one channel.
pub fn push(aux: &mut Aux, count: usize, factor: f32) {
    for i in 0..count {
        aux.fista[i] = mul_add!(factor, aux.fdata[i] - aux.fista[i], aux.fdata[i]);
    }
    std::mem::swap(&mut aux.fdata, &mut aux.fista);
}

/// Statements of `solver_step` on one channel.
pub fn descend(aux: &mut Aux, count: usize, step_size: f32) {
    let norm = aux.obj_gradient.iter().fold(0.0, |acc, &x| mul_add!(x, x, acc)).sqrt();
    if norm != 0.0 {
        for i in 0..count {
            aux.fdata[i] = step_size.mul_add(-(aux.obj_gradient[i] / norm), aux.fdata[i]);
        }
    }
}

/// What both published gradients return of all channels.
fn published_blend(w: u32, h: u32, auxs: &mut [Aux], second_order_weight: f32) -> [f64; 2] {
    let nchannel = auxs.len();
    let first = tv_gradient(w, h, nchannel, auxs);
    [first, tgv_gradient(w, h, nchannel, auxs, second_order_weight)]
}

fn copied(aux: &Aux) -> Aux {
    Aux {
        cos: aux.cos.clone(),
        obj_gradient: aux.obj_gradient.clone(),
        pixel_diff: PixelDifference { x: aux.pixel_diff.x.clone(), y: aux.pixel_diff.y.clone() },
        fdata: aux.fdata.clone(),
        fista: aux.fista.clone(),
    }
}

fn equal(x: &AlignedF32, y: &AlignedF32) -> bool {
    x.iter().zip(y.iter()).all(|(x, y)| same(*x, *y))
}

impl Run {
    /// The start of the run with the smoothing weight and iteration count at place `c`.
    fn start(sheet: &sheet::Sheet, owns: &[sheet::Channel], c: usize) -> Self {
        let reorder = sheet.reorders();
        let coefs: Vec<ScalarCoef> = owns.iter().map(|own| converted(own, reorder)).collect();
        let (w, h) = (sheet.w, sheet.h);
        Self {
            w,
            h,
            iterations: sheet.counts[c] as usize,
            // "A run's record carries the counts of its own channels only"
            holds: sheet.holds()[c..][..owns.len()].iter().map(|n| *n as usize).collect(),
            positions: vec![0; coefs.len()],
            marks: vec![false; coefs.len()],
            clipped: vec![0; coefs.len()],
            totals: [0.0; 2],
            auxs: coefs.iter().map(|coef| Aux::init(w, h, (w * h) as usize, coef)).collect(),
            coefs,
            owns: owns.to_vec(),
            reorder,
            weight: sheet.smoothing[c].value(),
            pweight: sheet.data.map(sheet::Weight::value),
            term: 1.0,
        }
    }

    /// A run whose channels have these six buffers each. No plane is made from the levels: it is not at its start.
    pub fn on(
        w: u32,
        h: u32,
        iterations: usize,
        owns: Vec<sheet::Channel>,
        weight: f32,
        pweight: [f32; 3],
        buffers: Vec<[Vec<f32>; 6]>,
    ) -> Self {
        let aux = |[plane, prior, gradient, across, down, saved]: [Vec<f32>; 6]| Aux {
            cos: saved.into(),
            obj_gradient: gradient.into(),
            pixel_diff: PixelDifference { x: across.into(), y: down.into() },
            fdata: plane.into(),
            fista: prior.into(),
        };
        Self {
            w,
            h,
            iterations,
            holds: vec![iterations; owns.len()],
            positions: vec![0; owns.len()],
            marks: vec![false; owns.len()],
            clipped: vec![0; owns.len()],
            totals: [0.0; 2],
            auxs: buffers.into_iter().map(aux).collect(),
            coefs: owns.iter().map(|own| without_image(&each::coefficient(own))).collect(),
            owns,
            reorder: Reorder::Each,
            weight,
            pweight,
            term: 1.0,
        }
    }

    pub fn channels(&self) -> usize {
        self.coefs.len()
    }

    fn count(&self) -> usize {
        (self.w * self.h) as usize
    }

    /// The constants of the next step, and the next term.
    pub fn constants(&self) -> (Constants, f32) {
        self.constants_at(self.term)
    }

    /// The constants of a step, counted from 0.
    pub fn constants_of(&self, step: usize) -> Constants {
        self.constants_at((0..step).fold(1.0, |term, _| self.constants_at(term).1)).0
    }

    /// Statements of `solve` and `solver_step`.
    fn constants_at(&self, term: f32) -> (Constants, f32) {
        let iterations = self.iterations;
        let radius = (self.count() as f32).sqrt() / 2.0;
        let next_term = f32::midpoint(1.0, mul_add!(4.0_f32, term.powi(2), 1.0).sqrt());
        let factor = (term - 1.0) / next_term;
        let step_size = radius / (1.0 + iterations as f32).sqrt();
        let second_order_weight = self.weight / 2.0_f32.sqrt();
        (Constants { term, factor, step_size, second_order_weight }, next_term)
    }

    /// A channel with the count k does steps 1 to k: "After its held step a channel still takes its turns, but push, data, move and project leave its buffers unchanged".
    pub fn is_held(&self, c: usize) -> bool {
        self.positions[c] >= 5 * self.holds[c]
    }

    /// The turn of a channel, which it takes without a change where it is held.
    fn turn(&mut self, c: usize, job: impl FnOnce(&mut Self)) {
        if !self.is_held(c) {
            job(self);
        }
        self.positions[c] += 1;
    }

    pub fn push(&mut self, c: usize, factor: f32) {
        let count = self.count();
        self.turn(c, |run| push(&mut run.auxs[c], count, factor));
    }

    /// Statements of `solver_step`.
    pub fn data(&mut self, c: usize) {
        self.turn(c, |run| run.gradient_of_data(c));
    }

    fn gradient_of_data(&mut self, c: usize) {
        let (w, h, count) = (self.w, self.h, self.count());
        let pweight = &self.pweight;
        let aux = &mut self.auxs[c];
        aux.obj_gradient = AlignedF32::zeros(count);
        if pweight[c] != 0.0 {
            let alpha = pweight[c] * 2.0 * 255.0 * 2.0_f32.sqrt();
            dct_gradient(w, h, alpha, &self.coefs[c], &aux.cos, &mut aux.obj_gradient);
        }
    }

    pub fn blend(&mut self, second_order_weight: f32) {
        let held: Vec<bool> = (0..self.channels()).map(|c| self.is_held(c)).collect();
        self.totals = if held.contains(&true) {
            self.blend_live(&held, second_order_weight)
        } else {
            published_blend(self.w, self.h, &mut self.auxs, second_order_weight)
        };
        self.positions.iter_mut().for_each(|p| *p += 1);
    }

    /// The own blend of the channels that are not held. It must do what the published functions do with a plane of zeros in place of each held one.
    fn blend_live(&mut self, held: &[bool], second_order_weight: f32) -> [f64; 2] {
        let count = self.count();
        let mut zeroed: Vec<Aux> = self.auxs.iter().map(copied).collect();
        let held_of = |auxs: &mut Vec<Aux>, c: usize| auxs[c].fdata = AlignedF32::zeros(count);
        (0..held.len()).filter(|c| held[*c]).for_each(|c| held_of(&mut zeroed, c));
        let due = published_blend(self.w, self.h, &mut zeroed, second_order_weight);
        let mut live: Vec<&mut Aux> =
            self.auxs.iter_mut().zip(held).filter(|(_, held)| !**held).map(|(aux, _)| aux).collect();
        let totals = holds::blend(self.w as usize, self.h as usize, held.len(), &mut live, second_order_weight);
        let like = |(aux, due): (&Aux, &Aux)| {
            let [x, y] = [&aux.pixel_diff, &due.pixel_diff];
            equal(&aux.obj_gradient, &due.obj_gradient) && equal(&x.x, &y.x) && equal(&x.y, &y.y)
        };
        let pairs = self.auxs.iter().zip(&zeroed).zip(held);
        assert!(
            totals.map(bits64) == due.map(bits64) && pairs.filter(|(_, held)| !**held).all(|(pair, _)| like(pair)),
            "the own blend and the published one with zeros for the held channels"
        );
        totals
    }

    pub fn move_plane(&mut self, c: usize, step_size: f32) {
        let count = self.count();
        self.turn(c, |run| descend(&mut run.auxs[c], count, step_size));
    }

    /// A channel's coefficients as the projection finds them: those that the published one keeps where each interval has no end, the quantisers being infinite.
    fn transformed(&self, c: usize) -> AlignedF32 {
        let given = each::coefficient(&self.owns[c]);
        let free = ScalarCoef {
            dct_coefs: vec![0.0; given.dct_coefs.len()],
            quant_table: [f32::INFINITY; 64],
            ..without_image(&given)
        };
        self.projected(c, &free).cos
    }

    /// What the published projection leaves of a channel with these levels and quantisers.
    fn projected(&self, c: usize, coef: &ScalarCoef) -> Aux {
        let aux = &self.auxs[c];
        let pixel_diff = PixelDifference { x: aux.pixel_diff.x.clone(), y: aux.pixel_diff.y.clone() };
        let [cos, obj_gradient, fista] = [(); 3].map(|()| AlignedF32::zeros(0));
        let mut copy = Aux { cos, obj_gradient, pixel_diff, fdata: aux.fdata.clone(), fista };
        project_onto_box(self.w, self.h, &mut copy, coef);
        copy
    }

    /// The projection onto ranges. It must leave what the published projection leaves where each level is the one of its range that is nearest to the value.
    fn project_ranges(&mut self, c: usize, found: &AlignedF32) {
        let (own, pairs): (_, Vec<_>) = (&self.owns[c], self.owns[c].levels.pairs().collect());
        let given = each::coefficient(own);
        let level = |(k, pair): (usize, &(i32, i32))| nearest(found[k], *pair, own.table[k % 64]) as f32;
        let single = ScalarCoef { dct_coefs: pairs.iter().enumerate().map(level).collect(), ..without_image(&given) };
        let due = self.projected(c, &single);
        let (aux, table) = (&mut self.auxs[c], &own.table);
        project_onto_ranges(self.w, self.h, aux, &self.coefs[c], &pairs, table);
        let (diff, published) = (&aux.pixel_diff, &due.pixel_diff);
        assert!(
            equal(&aux.fdata, &due.fdata)
                && equal(&aux.cos, &due.cos)
                && equal(&diff.x, &published.x)
                && equal(&diff.y, &published.y),
            "the projection onto ranges and the published one onto their nearest levels"
        );
    }

    /// "Its project returns and keeps the last clipped number, and job 5's test for the mark stays" where a channel is held.
    pub fn project(&mut self, c: usize) {
        self.turn(c, |run| run.project_onto(c));
        let own = self.coefs[c].rounded_px_count as usize;
        let aux = &self.auxs[c];
        self.marks[c] = !aux.fdata.iter().chain(&aux.cos[..own]).all(|x| x.is_finite());
    }

    /// The published projection, or the own one onto ranges. The own count of the values that lay outside is held against it: it keeps the others as they were, and only
    /// those.
    fn project_onto(&mut self, c: usize) {
        let found = self.transformed(c);
        if self.owns[c].levels.are_equal() {
            project_onto_box(self.w, self.h, &mut self.auxs[c], &self.coefs[c]);
        } else {
            self.project_ranges(c, &found);
        }
        let own = self.coefs[c].rounded_px_count as usize;
        let aux = &self.auxs[c];
        let (levels, table) = (&self.owns[c].levels, &self.owns[c].table);
        let moved = |k: &usize| outside(found[*k], (levels.lows[*k], levels.highs[*k]), table[*k % 64]);
        assert!(
            (0..own).all(|k| moved(&k) != same(found[k], aux.cos[k])),
            "the own count and the published projection"
        );
        self.clipped[c] = (0..own).filter(moved).count() as u32;
    }

    /// The five jobs of a step; `after` sees the run after each, with the job's name and the channel that it was done for (for blend each channel).
    pub fn step(&mut self, mut after: impl FnMut(&Self, &str, usize)) {
        let channels = 0..self.channels();
        let (now, next_term) = self.constants();
        for c in channels.clone() {
            self.push(c, now.factor);
            after(self, "push", c);
        }
        self.term = next_term;
        for c in channels.clone() {
            self.data(c);
            after(self, "data", c);
        }
        self.blend(now.second_order_weight);
        channels.clone().for_each(|c| after(self, "blend", c));
        for c in channels.clone() {
            self.move_plane(c, now.step_size);
            after(self, "move", c);
        }
        for c in channels {
            self.project(c);
            after(self, "project", c);
        }
    }

    pub fn is_done(&self) -> bool {
        self.positions[0] == 5 * self.iterations
    }

    pub fn is_blown(&self) -> bool {
        self.marks.contains(&true)
    }

    /// A channel's six buffers by document 01's names. Saved is 0 past the own sides' places, where the published Rust keeps scratch.
    pub fn buffers(&self, c: usize) -> [(&'static str, Vec<f32>); 6] {
        let (aux, own) = (&self.auxs[c], self.coefs[c].rounded_px_count as usize);
        let mut saved = vec![0.0; self.count()];
        saved[..own].copy_from_slice(&aux.cos[..own]);
        [
            ("plane", aux.fdata.to_vec()),
            ("prior", aux.fista.to_vec()),
            ("gradient", aux.obj_gradient.to_vec()),
            ("across", aux.pixel_diff.x.to_vec()),
            ("down", aux.pixel_diff.y.to_vec()),
            ("saved", saved),
        ]
    }

    /// Whether the planes of a run that is done are those of the published `solve`, which knows no ranges and holds no channel: "The oracle judges sheets without `G`, these rules the
    /// others"; "The oracle still judges sheets without an `H` line, and the others are judged by the recursion".
    pub fn check(&self) -> bool {
        if self.owns.iter().any(|own| !own.levels.are_equal()) || self.holds.iter().any(|n| *n != self.iterations) {
            return true;
        }
        let solve = match self.reorder {
            Reorder::Each => each::solve,
            Reorder::Once => once::solve,
        };
        let planes = solve(&self.owns, self.weight, self.pweight, self.iterations, [self.w, self.h]);
        let equal = |(aux, plane): (&Aux, &Vec<f32>)| aux.fdata.iter().zip(plane).all(|(x, y)| same(*x, *y));
        self.auxs.iter().zip(&planes).all(equal)
    }
}

#[cfg(test)]
mod tests {
    use super::*;
    use crate::{random::Random, texts::legal};

    #[test]
    fn planes_are_those_of_solve() {
        let mut r = Random::new(1);
        for _ in 0..200 {
            let sheet = legal(&mut r, 32, 6);
            for mut run in runs(&sheet) {
                while !run.is_done() {
                    run.step(|_, _, _| ());
                }
                assert!(run.check(), "{}", String::from_utf8_lossy(&sheet.text()));
            }
        }
    }
}
