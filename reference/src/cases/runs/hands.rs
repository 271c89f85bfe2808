//! Values and jobs touched by a low hand before every kind of step: a lost history shows only
//! there, since declared values carry 15 and the job's own history covers the rest.

use super::events::{self, cell, plain, steps, Brought};
use super::Run;
use crate::cases::check_books::scene::{Scene, Value};
use crate::cases::generate::records::{
    add, code, exec, lower, name, new, put, read, relabel, start, write, Draft,
};
use crate::cases::generate::Bytes;

/// Cells: the touched one of label 0, another of low trust and label 2, one of trust and label 9,
/// and one of label 9 that holds block 2.
const TOUCHED: u8 = 0;
const LOW: u8 = 1;
const HIGH: u8 = 2;
const CODE: u8 = 3;

const LOW_SHAPE: u8 = 2;
const HIGH_SHAPE: u8 = 3;
const CODE_SHAPE: u8 = 4;

fn scene() -> Scene {
    let mut scene = Scene::new(3);
    let plain = scene.plain();
    let code = scene.code(15);
    scene.cell_of(plain, 2);
    scene.cell_of(plain, 9);
    scene.cell_of(code, 9);
    scene.declare(LOW_SHAPE, 0, Value::Plain);
    scene.declare(LOW_SHAPE, 2, Value::Plain);
    scene.declare(HIGH_SHAPE, 9, Value::Plain);
    scene.declare(CODE_SHAPE, 9, Value::Code(2));
    scene
}

/// Registers 0, 2, 3 and 4 are the cells, register 1 what the touched one holds; 5 to 7 are plain.
fn head() -> Draft {
    vec![
        name(0, TOUCHED),
        read(1, 0),
        name(2, LOW),
        name(3, HIGH),
        name(4, CODE),
    ]
}

/// Every kind of step, with the touched value and without.
fn probes() -> Vec<Draft> {
    let mut probes: Vec<Draft> = single_probes().into_iter().map(|step| vec![step]).collect();
    probes.extend([
        vec![new(7, LOW_SHAPE, 1), read(6, 7)],
        vec![new(7, CODE_SHAPE, 1), exec(7)],
        vec![write(3, 1), read(7, 3)],
        vec![write(2, 1), exec(2)],
        vec![relabel(0, 11), exec(0)],
        vec![add(6, 1, 5), write(3, 6)],
        vec![start(2), lower(1), start(2)],
        vec![read(5, 2), add(7, 5, 6), add(7, 6, 5)],
        vec![
            new(6, LOW_SHAPE, 1),
            new(7, HIGH_SHAPE, 6),
            read(5, 7),
            read(5, 5),
        ],
    ]);
    probes
}

fn single_probes() -> Draft {
    vec![
        put(1, 9),
        name(1, HIGH),
        code(1, 2),
        add(7, 1, 6),
        add(7, 6, 1),
        add(7, 1, 1),
        add(1, 1, 6),
        add(7, 5, 6),
        new(7, LOW_SHAPE, 1),
        new(7, HIGH_SHAPE, 1),
        new(1, LOW_SHAPE, 6),
        read(7, 1),
        read(1, 3),
        write(0, 1),
        write(0, 6),
        write(1, 6),
        write(2, 1),
        write(3, 1),
        relabel(0, 11),
        relabel(1, 2),
        relabel(2, 1),
        relabel(3, 10),
        lower(9),
        lower(0),
        start(2),
        start(1),
        exec(0),
        exec(1),
        exec(4),
    ]
}

/// What stands before the probe.
fn before() -> [Draft; 3] {
    [vec![], vec![lower(9)], vec![lower(2)]]
}

pub fn runs() -> Vec<Run> {
    [touched_values(), touched_jobs()].concat()
}

/// What the outsider brings.
const VALUES: [Option<Brought>; 5] = [
    None,
    Some((0, u32::MAX)),
    Some((1, HIGH as u32)),
    Some((1, CODE as u32)),
    Some((2, 2)),
];

fn touched_values() -> Vec<Run> {
    let mut runs = Vec::new();
    for (bound, q) in [(12, 0), (12, 1), (15, 3), (3, 1)] {
        for value in VALUES {
            for before in before() {
                let with = |probe: &Draft| [head(), before.clone(), probe.clone()].concat();
                let all = probes();
                let blocks = all.iter().map(with);
                runs.extend(blocks.map(|block| touched_value(bound, q, value, &block)));
            }
        }
    }
    runs
}

/// Job 0 has block 0 of these steps; the jobs it makes go a step as well.
fn touched_value(bound: u8, q: u8, value: Option<Brought>, block: &[Bytes]) -> Run {
    let book = scene()
        .with_block(bound, block)
        .with_block(15, &[put(0, 1)]);
    let book = book.with_block(7, &[put(1, 2)]).book();
    let touch = value.map_or(vec![], |value| events::write(q, TOUCHED, value));
    let go = [steps(0, block.len() + 1), steps(1, 2), steps(2, 1)].concat();
    Run::new(book, [touch, go].concat())
}

fn touched_jobs() -> Vec<Run> {
    let mut runs = Vec::new();
    for q in [0, 1, 3] {
        for before in before() {
            for probe in probes() {
                runs.push(touched_job(q, &[head(), before.clone(), probe].concat()));
            }
        }
    }
    runs
}

/// The outsider's code is block 1, of these steps. Job 0 raises the cell's label to 11 and runs
/// it: job 1 has the label 11 and Q in its history.
fn touched_job(q: u8, block: &[Bytes]) -> Run {
    let launch = [name(0, TOUCHED), relabel(0, 11), exec(0)];
    let book = scene().with_block(12, &launch).with_block(15, block);
    let book = book.with_block(7, &[put(1, 2)]).book();
    let touch = events::write(q, TOUCHED, events::code(1));
    let go = [steps(0, 3), steps(1, block.len() + 1), steps(2, 2)].concat();
    let late = [
        events::write(3, LOW, plain(4)),
        events::write(2, LOW, cell(0)),
    ];
    Run::new(book, [touch, go, late.concat()].concat())
}
