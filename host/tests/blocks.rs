//! Machines made of blocks (document 02, §10): the calculator against machines that are assembled of blocks and counted as one, against the
//! blocks' counts alone, also where no block has them, and against 003's equations 12 and 13; blocks whose whole is known, and what another
//! order of the blocks, duals and blocks made of blocks come to; refusals in their order, with every cell of the lent buffers.

use nahokipe::lent::{self, MOST_ENTRIES};
use nahokipe::{convert, dual, path_counts, path_counts_of_blocks, vector_verdict, Kind, Refusal};
use nahokipe_testing::comparing::{about_assembly, same, same_path_counts_of_blocks, Left};
use nahokipe_testing::known::{BLOCK_MACHINES, REFUSED_BLOCKS, REFUSED_TABLES};
use nahokipe_testing::making::{accepted_counts, counts_of, machines, mixed_blocks, moved};
use nahokipe_testing::making::{every_and_random_machines, lists_of, random_blocks, random_counts};
use nahokipe_testing::making::{random_assembly, random_sizes, random_table};
use nahokipe_testing::making::{sets_of_size, table_of_sets};
use nahokipe_testing::naive::{delivered, refused, structure_of, table_of};
use nahokipe_testing::naive_blocks::{self as by_words, others, parts_of, product};
use nahokipe_testing::naive_blocks::{Assembly, Block};
use nahokipe_testing::naive_figures::{self, binomial, figures_of_any};
use nahokipe_testing::seeded::Seeded;
use std::collections::BTreeSet;
use std::slice;

/// A machine by its number of parts and its table.
type Machine = (usize, Vec<u8>);

/// What the calculator gives, with nothing lent.
fn asked(assembly: &Assembly) -> Result<Vec<i64>, Refusal> {
    path_counts_of_blocks(
        assembly.blocks,
        &assembly.table,
        &assembly.sizes,
        &assembly.vectors,
    )
}

/// The path counts of the whole that the calculator gives of accepted blocks.
fn given(table: &[u8], blocks: &[Vec<i128>]) -> Vec<i128> {
    let counts = asked(&Assembly::of(table, blocks)).expect("accepted blocks");
    counts.into_iter().map(i128::from).collect()
}

/// The path counts of a machine, one set after the other.
fn counted(n: usize, works: &[bool]) -> Vec<i128> {
    naive_figures::path_counts(n, works)
}

/// The path counts of a machine that is given by its table.
fn counts_of_machine((n, table): &Machine) -> Vec<i128> {
    counted(*n, &structure_of(*n, table))
}

/// C(n,0) to C(n,n): how many sets of each size n parts have.
fn binomials(n: usize) -> Vec<i128> {
    (0..=n).map(|j| binomial(n, j)).collect()
}

/// Path counts of a machine that runs on any m of its n parts.
fn counts_of_any(m: usize, n: usize) -> Vec<i128> {
    let counts = figures_of_any(m, n).counts.into_iter();
    counts.map(i128::from).collect()
}

// ---- comparing

/// An assembly into buffers of every length that matters; the path counts that are expected, or the refusal.
fn compare(assembly: &Assembly) -> Result<Vec<i64>, Refusal> {
    let expected = by_words::path_counts_of_blocks(assembly);
    same_path_counts_of_blocks(assembly, &expected);
    expected
}

/// Machines as blocks under a table, with their parts mixed: the whole is assembled and its path sets are counted, and the calculator is
/// told the blocks' counts alone.
fn compare_assembled(seeded: &mut Seeded, table: &[u8], machines: &[Machine]) {
    let over = structure_of(machines.len(), table);
    let mixed = mixed_blocks(seeded, machines);
    let whole = by_words::assembled(&over, &mixed);
    let blocks: Vec<Vec<i128>> = machines.iter().map(counts_of_machine).collect();
    let expected = counted(parts_of(&blocks), &whole);
    assert_eq!(given(table, &blocks), expected, "{table:02X?}, {mixed:?}");
}

/// Accepted counts of blocks under a table, against the sum over the path sets of blocks.
fn compare_counts(table: &[u8], blocks: &[Vec<i128>]) {
    let over = structure_of(blocks.len(), table);
    let expected = by_words::by_counts(&over, blocks);
    assert_eq!(given(table, blocks), expected, "{table:02X?}, {blocks:?}");
}

/// Equations 12 and 13 at as many points as decide two polynomials of up to 16 parts.
fn compare_equations(table: &[u8], blocks: &[Vec<i128>]) {
    let coefficients = by_words::coefficients(&structure_of(blocks.len(), table));
    let whole = given(table, blocks);
    for x in -8..=8 {
        let composed = by_words::composed(&coefficients, blocks, x);
        let found = by_words::reflected(&whole, x);
        assert_eq!(found, composed, "x = {x}, {table:02X?}, {blocks:?}");
    }
}

// ---- against machines that are assembled

/// The machines of 1 to `most` parts.
fn machines_of_up_to(most: usize) -> Vec<Machine> {
    let of_size = |n| machines(n).into_iter().map(move |table| (n, table));
    (1..=most).flat_map(of_size).collect()
}

/// Every table over one, two and three blocks, with every machine of up to three parts for each block.
#[test]
fn every_assembly_of_up_to_three_small_blocks() {
    let mut seeded = Seeded::new(450);
    let blocks = machines_of_up_to(3);
    let choices: Vec<&Machine> = blocks.iter().collect();
    for (count, assemblies) in [(1, 23), (2, 4 * 23 * 23), (3, 18 * 23 * 23 * 23)] {
        let mut seen = 0;
        for table in machines(count) {
            for chosen in lists_of(&choices, count as u32) {
                let chosen: Vec<Machine> = chosen.into_iter().cloned().collect();
                compare_assembled(&mut seeded, &table, &chosen);
                seen += 1;
            }
        }
        assert_eq!(seen, assemblies);
    }
}

/// Up to sixteen blocks, of up to sixteen parts in all.
#[test]
fn random_assemblies_of_up_to_sixteen_parts() {
    let mut seeded = Seeded::new(451);
    for count in 1..=16 {
        for _ in 0..6 {
            let table = random_table(&mut seeded, count);
            let sizes = random_sizes(&mut seeded, count).into_iter();
            let block = |n| (n, random_table(&mut seeded, n));
            let blocks: Vec<Machine> = sizes.map(block).collect();
            compare_assembled(&mut seeded, &table, &blocks);
        }
    }
}

// ---- against counts alone

/// All accepted counts of 1 to `most` parts.
fn counts_of_up_to(most: usize) -> Vec<Vec<i128>> {
    (1..=most).flat_map(accepted_counts).collect()
}

/// Under every table over so many blocks all accepted counts of 1 to `most` parts for each, with 003's equations at points.
fn compare_all_counts(count: usize, most: usize) {
    let all = counts_of_up_to(most);
    let choices: Vec<&Vec<i128>> = all.iter().collect();
    for table in machines(count) {
        for chosen in lists_of(&choices, count as u32) {
            let blocks: Vec<Vec<i128>> = chosen.into_iter().cloned().collect();
            compare_counts(&table, &blocks);
            compare_equations(&table, &blocks);
        }
    }
}

#[test]
fn all_accepted_counts_of_small_blocks() {
    compare_all_counts(1, 4);
    compare_all_counts(2, 4);
    compare_all_counts(3, 3);
}

/// Some of these counts are those of no machine: one part that suffices leaves two pairs that do, and a pair leaves two triples.
#[test]
fn accepted_counts_that_no_machine_has() {
    let of_machines: BTreeSet<Vec<i128>> =
        machines_of_up_to(4).iter().map(counts_of_machine).collect();
    let mut of_none = counts_of_up_to(4);
    of_none.retain(|counts| !of_machines.contains(counts));
    for counts in [vec![0, 1, 1, 1], vec![0, 0, 1, 1, 1]] {
        assert!(of_none.contains(&counts), "{counts:?}");
    }
    assert!(of_none.iter().all(|counts| counts.len() > 3));
    let part = vec![0, 1];
    for counts in &of_none {
        assert_eq!(given(&[0x02], slice::from_ref(counts)), *counts);
        let moved_up = [&[0], counts.as_slice()].concat();
        let series = given(&[0x08], &[counts.clone(), part.clone()]);
        assert_eq!(series, moved_up);
    }
}

/// Counts of machines and of none, up to sixteen blocks, into buffers of every length that matters.
#[test]
fn random_counts_of_up_to_sixteen_blocks() {
    let mut seeded = Seeded::new(453);
    for count in 1..=16 {
        for _ in 0..8 {
            let assembly = random_assembly(&mut seeded, count);
            assert!(compare(&assembly).is_ok());
        }
    }
}

/// The same against 003's equations.
#[test]
fn equations_of_up_to_sixteen_blocks() {
    let mut seeded = Seeded::new(454);
    for count in 1..=16 {
        for _ in 0..if count <= 12 { 8 } else { 1 } {
            let table = random_table(&mut seeded, count);
            let blocks = random_blocks(&mut seeded, count);
            compare_equations(&table, &blocks);
        }
    }
}

/// What is given can be given on: it is accepted as path counts.
#[test]
fn what_is_given_is_accepted() {
    let mut seeded = Seeded::new(455);
    let random = (1..=16).flat_map(|count| [count; 12]);
    let random = random.map(|count| random_assembly(&mut seeded, count));
    let all = counts_of_up_to(4);
    let choices: Vec<&Vec<i128>> = all.iter().collect();
    let two = lists_of(&choices, 2).flat_map(|chosen| {
        let blocks: Vec<Vec<i128>> = chosen.into_iter().cloned().collect();
        [[0x08], [0x0E]].map(|table| Assembly::of(&table, &blocks))
    });
    for assembly in random.chain(two) {
        let counts = asked(&assembly).expect("accepted blocks");
        let n = assembly.sizes.iter().sum();
        let verdict = vector_verdict(Kind::PathCounts, n, &counts);
        assert_eq!(verdict, Ok(()), "{}", about_assembly(&assembly));
    }
}

// ---- blocks whose whole is known

#[test]
fn known_machines() {
    for (blocks, table, sizes, vectors, counts) in BLOCK_MACHINES {
        let assembly = Assembly::told(blocks, table, sizes, vectors);
        let about = about_assembly(&assembly);
        assert_eq!(compare(&assembly).as_deref(), Ok(counts), "{about}");
    }
}

/// The request's example, from the shares that it gives to the orders: 1/3 and 2/3 of 3! orders, 2/3 and 1/3 of 4!.
#[test]
fn two_blocks_in_series_from_their_signatures() {
    let counts = [&[2, 4, 0][..], &[0, 16, 8, 0]].map(|orders| {
        let counts = convert(Kind::Signature, orders.len(), orders, Kind::PathCounts);
        counts.expect("an accepted signature")
    });
    let whole = path_counts_of_blocks(2, &[0x08], &[3, 4], &counts.concat());
    let whole = whole.expect("accepted blocks");
    let orders = convert(Kind::PathCounts, 7, &whole, Kind::Signature);
    assert_eq!(orders, Ok(vec![720, 1920, 1824, 576, 0, 0, 0]));
}

#[test]
fn one_block_that_is_the_whole() {
    let mut seeded = Seeded::new(456);
    for n in 1..=16 {
        for _ in 0..12 {
            let counts = random_counts(&mut seeded, n);
            assert_eq!(given(&[0x02], slice::from_ref(&counts)), counts);
        }
    }
}

/// The whole has the counts of the table itself.
#[test]
fn blocks_of_one_part() {
    for (count, table) in every_and_random_machines(457) {
        let blocks = vec![vec![0, 1]; count];
        let counts = path_counts(count, &table).expect("an accepted table");
        let counts = counts.into_iter().map(i128::from);
        assert!(given(&table, &blocks).into_iter().eq(counts), "{count}");
    }
}

/// Any m of sixteen parts, each a block of its own: the largest counts there are, and the most path sets of blocks.
#[test]
fn any_m_of_sixteen_blocks_of_one_part() {
    let blocks = vec![vec![0, 1]; 16];
    for m in 1..=16 {
        let table = table_of_sets(16, &sets_of_size(16, m as u32));
        assert_eq!(given(&table, &blocks), counts_of_any(m, 16), "{m}");
    }
}

/// In series the ways to run multiply, in parallel the ways to be stopped do.
#[test]
fn blocks_in_series_and_in_parallel() {
    let mut seeded = Seeded::new(458);
    let multiplied = |blocks: &[Vec<i128>]| {
        let with_block = |ways: Vec<i128>, block: &Vec<i128>| product(&ways, block);
        blocks.iter().fold(vec![1], with_block)
    };
    for count in 1..=16 {
        let [series, parallel] = [count, 1].map(|m| sets_of_size(count, m as u32));
        let [series, parallel] = [series, parallel].map(|sets| table_of_sets(count, &sets));
        for _ in 0..8 {
            let blocks = random_blocks(&mut seeded, count);
            let running = multiplied(&blocks);
            assert_eq!(given(&series, &blocks), running, "{blocks:?}");
            let stopped: Vec<Vec<i128>> = blocks.iter().map(|counts| others(counts)).collect();
            let running = others(&multiplied(&stopped));
            assert_eq!(given(&parallel, &blocks), running, "{blocks:?}");
        }
    }
}

/// Blocks that need all their parts: the machine has for each minimal set of blocks the set of all their parts.
#[test]
fn blocks_that_need_all_their_parts() {
    let mut seeded = Seeded::new(459);
    for count in 1..=8 {
        for _ in 0..8 {
            let table = random_table(&mut seeded, count);
            let sizes = random_sizes(&mut seeded, count);
            let end = |b: usize| sizes[..=b].iter().sum::<usize>();
            let all = |b: usize| ((1 << end(b)) - (1 << (end(b) - sizes[b]))) as u16;
            let minimal = nahokipe::minimal_sets(count, &table).expect("an accepted table");
            let joined = |set: &u16| (0..count).filter(|b| set >> b & 1 == 1).map(all).sum();
            let list: Vec<u16> = minimal.iter().map(joined).collect();
            let n = end(count - 1);
            let expected = counts_of_machine(&(n, table_of_sets(n, &list)));
            let series = all_in_series(&sizes);
            let found = path_counts_of_blocks(count, &table, &sizes, &series.vectors);
            let found = found.expect("accepted blocks").into_iter();
            assert!(found.map(i128::from).eq(expected), "{sizes:?}");
        }
    }
}

// ---- two assemblies of the same blocks

/// Tables over up to sixteen blocks, with accepted counts for each block.
fn random_machines(seed: u64) -> Vec<(Vec<u8>, Vec<Vec<i128>>)> {
    let mut seeded = Seeded::new(seed);
    let counts = (1..=16).flat_map(|count| [count; 6]);
    let machine = |count| {
        let table = random_table(&mut seeded, count);
        (table, random_blocks(&mut seeded, count))
    };
    counts.map(machine).collect()
}

/// The order of the blocks does not matter as long as table, sizes and vectors have the same.
#[test]
fn the_blocks_in_another_order() {
    let mut seeded = Seeded::new(460);
    for (table, blocks) in random_machines(461) {
        let mut to: Vec<usize> = (0..blocks.len()).collect();
        seeded.shuffle(&mut to);
        let mut shuffled = blocks.clone();
        for (counts, &bit) in blocks.iter().zip(&to) {
            shuffled[bit] = counts.clone();
        }
        let turned = moved(blocks.len(), &table, &to);
        assert_eq!(given(&turned, &shuffled), given(&table, &blocks), "{to:?}");
    }
}

/// The dual's counts: C(n,j) less those of n-j parts.
fn dual_counts(counts: &[i128]) -> Vec<i128> {
    let turned: Vec<i128> = counts.iter().rev().copied().collect();
    others(&turned)
}

#[test]
fn the_duals_of_table_and_blocks() {
    for (table, blocks) in random_machines(462) {
        let dual = dual(blocks.len(), &table).expect("an accepted table");
        let duals: Vec<Vec<i128>> = blocks.iter().map(|counts| dual_counts(counts)).collect();
        let expected = dual_counts(&given(&table, &blocks));
        assert_eq!(given(&dual, &duals), expected, "{blocks:?}");
    }
}

/// A block more that is idle may have any of its sets beside each path set.
#[test]
fn one_idle_block_more() {
    let mut seeded = Seeded::new(463);
    for (table, mut blocks) in random_machines(464) {
        let room = 16 - parts_of(&blocks);
        if blocks.len() < 3 || room == 0 {
            continue;
        }
        let size = seeded.between(1, room);
        let expected = product(&given(&table, &blocks), &binomials(size));
        blocks.push(random_counts(&mut seeded, size));
        assert_eq!(given(&table.repeat(2), &blocks), expected, "{blocks:?}");
    }
}

/// So many blocks in groups that follow each other, by the groups' sizes.
fn random_groups(seeded: &mut Seeded, count: usize) -> Vec<usize> {
    let mut groups = vec![1];
    for _ in 1..count {
        let last = groups.len() - 1;
        match seeded.between(0, 1) {
            0 => groups.push(1),
            _ => groups[last] += 1,
        }
    }
    groups
}

/// Each block is made of blocks itself: the whole is the same in two steps as in one, under the table that is assembled of all tables.
#[test]
fn blocks_made_of_blocks() {
    let mut seeded = Seeded::new(465);
    for count in (1..=16).flat_map(|count| [count; 6]) {
        let blocks = random_blocks(&mut seeded, count);
        let (mut groups, mut group_counts, mut next) = (Vec::new(), Vec::new(), 0);
        for n in random_groups(&mut seeded, count) {
            let table = random_table(&mut seeded, n);
            group_counts.push(given(&table, &blocks[next..next + n]));
            groups.push(Block {
                works: structure_of(n, &table),
                parts: (next..next + n).collect(),
            });
            next += n;
        }
        let over_groups = random_table(&mut seeded, groups.len());
        let over = structure_of(groups.len(), &over_groups);
        let table = table_of(&by_words::assembled(&over, &groups));
        let in_two_steps = given(&over_groups, &group_counts);
        assert_eq!(given(&table, &blocks), in_two_steps, "{blocks:?}");
    }
}

// ---- refusals

#[test]
fn examples_of_the_order_of_checks() {
    for (blocks, table, sizes, vectors, number, place) in REFUSED_BLOCKS {
        let assembly = Assembly::told(blocks, table, sizes, vectors);
        let about = about_assembly(&assembly);
        assert_eq!(compare(&assembly), refused(number, place), "{about}");
    }
}

/// A refused table speaks first, whatever sizes and vectors are.
#[test]
fn the_table_speaks_first() {
    let sizes: [&[usize]; 5] = [&[], &[1], &[3, 4], &[0, 17], &[usize::MAX; 17]];
    let vectors: [&[i64]; 4] = [&[], &[0, 1], &[0, 0, 2, 1, 0, 0, 2, 4, 1], &[i64::MIN; 40]];
    for (blocks, table, number, place) in REFUSED_TABLES {
        for sizes in sizes {
            for vectors in vectors {
                let assembly = Assembly::told(blocks, table, sizes, vectors);
                let about = about_assembly(&assembly);
                assert_eq!(compare(&assembly), refused(number, place), "{about}");
            }
        }
    }
}

/// What spoils an assembly, and the number and the place that this is refused with.
type Damage = (fn(&mut Assembly), u8, usize);

/// Each check in its order, on three blocks in series, of 5 or 9 parts, 8 parts and 2.
const DAMAGES: [Damage; 14] = [
    (|assembly| assembly.blocks = 17, 1, 0),
    (|assembly| assembly.table.push(0), 6, 0),
    (|assembly| assembly.table[0] |= 0x01, 8, 0),
    (|assembly| assembly.table[0] &= 0x7F, 9, 0),
    (|assembly| assembly.table[0] |= 0x02, 10, 1),
    (|assembly| assembly.sizes.push(1), 12, 0),
    (|assembly| assembly.sizes[2] = 0, 1, 0),
    (|assembly| assembly.vectors.push(0), 12, 0),
    (|assembly| vector_of(assembly, 0)[2] = -1, 13, 2),
    (|assembly| vector_of(assembly, 0)[1] = 5, 14, 1),
    (|assembly| vector_of(assembly, 1)[8] = 0, 13, 8),
    (|assembly| vector_of(assembly, 1)[3] = 1, 14, 3),
    (|assembly| vector_of(assembly, 2)[0] = 1, 13, 0),
    (|assembly| vector_of(assembly, 2)[1] = 3, 13, 1),
];

/// The entries from those of one block on.
fn vector_of(assembly: &mut Assembly, block: usize) -> &mut [i64] {
    let before: usize = assembly.sizes[..block].iter().map(|size| size + 1).sum();
    &mut assembly.vectors[before..]
}

/// Blocks of these sizes that need all their parts, and are all needed.
fn all_in_series(sizes: &[usize]) -> Assembly {
    let blocks: Vec<Vec<i128>> = sizes.iter().map(|&n| counts_of_any(n, n)).collect();
    let series = table_of_sets(sizes.len(), &sets_of_size(sizes.len(), sizes.len() as u32));
    Assembly::of(&series, &blocks)
}

/// Each choice of damages is refused with the first of them; where there are too many parts, 33 comes behind all of these, and before 11.
#[test]
fn each_check_before_each_later_one() {
    for (first_size, undamaged) in [(5, None), (9, Some((33, 0)))] {
        let whole = all_in_series(&[first_size, 8, 2]);
        for chosen in 0..1_usize << DAMAGES.len() {
            let mut spoilt = whole.clone();
            let mut damages = (0..DAMAGES.len()).filter(|i| chosen >> i & 1 == 1);
            let first = damages.next().map(|i| DAMAGES[i]);
            let expected = first
                .map(|(_, number, place)| (number, place))
                .or(undamaged);
            for (damage, ..) in first.into_iter().chain(damages.map(|i| DAMAGES[i])) {
                damage(&mut spoilt);
            }
            let found = compare(&spoilt).err();
            let found = found.map(|refusal| (refusal.number, refusal.place));
            assert_eq!(found, expected, "{}", about_assembly(&spoilt));
        }
    }
}

/// 1 for every number of blocks that is none of 1 to 16, among them those that would be 1 to 16 if higher bits were lost.
#[test]
fn wrong_numbers_of_blocks() {
    let assemblies = [1, 3, 16].map(|count| all_in_series(&vec![1; count]));
    let far = [31, 32, 63, 64, usize::MAX - 1, usize::MAX];
    let higher = (0..=16).flat_map(|n| [8, 16, 32, 63].map(|bit| n + (1 << bit)));
    for blocks in [0].into_iter().chain(17..=20).chain(far).chain(higher) {
        for assembly in &assemblies {
            let mut wrong = assembly.clone();
            wrong.blocks = blocks;
            assert_eq!(compare(&wrong), refused(1, 0), "{blocks}");
            wrong.sizes.truncate(blocks);
            wrong.table.clear();
            assert_eq!(compare(&wrong), refused(1, 0), "{blocks}");
        }
    }
}

/// 12 for every number of sizes but that of the blocks, also where the vectors are those of these sizes or a size is none.
#[test]
fn wrong_numbers_of_sizes() {
    let mut seeded = Seeded::new(467);
    for count in 1..=16 {
        let table = random_table(&mut seeded, count);
        for listed in (0..=count + 3).filter(|&listed| listed != count) {
            let blocks = vec![vec![0, 1]; listed];
            let mut assembly = Assembly::of(&table, &blocks);
            assembly.blocks = count;
            assert_eq!(compare(&assembly), refused(12, 0), "{listed} for {count}");
            assembly.sizes.fill(0);
            assert_eq!(compare(&assembly), refused(12, 0), "{listed} for {count}");
        }
    }
}

/// 1 for every size that is none of 1 to 16, in the place of each block, whatever the vectors are; among them those that would be right if
/// higher bits were lost, and those that make the total come round to a small one.
#[test]
fn wrong_sizes() {
    let mut seeded = Seeded::new(468);
    for count in 1..=10 {
        let assembly = random_assembly(&mut seeded, count);
        for block in 0..count {
            let size = assembly.sizes[block];
            let higher = [8, 16, 32, 63].map(|bit| size + (1 << bit));
            let round = [1, 2, 15, 16, 17].map(|below| usize::MAX - below + 1);
            let far = [0, 17, 18, 31, 32, 64, 255, 256, (1 << 32) + 1];
            for wrong in higher.into_iter().chain(round).chain(far) {
                let mut spoilt = assembly.clone();
                spoilt.sizes[block] = wrong;
                assert_eq!(compare(&spoilt), refused(1, 0), "{wrong}");
                spoilt.vectors.resize(spoilt.vectors.len() + 1, 0);
                assert_eq!(compare(&spoilt), refused(1, 0), "{wrong}");
                spoilt.vectors.clear();
                assert_eq!(compare(&spoilt), refused(1, 0), "{wrong}");
            }
        }
    }
}

/// 12 for every length of all vectors together but the right one, whatever stands in them.
#[test]
fn wrong_lengths_of_vectors() {
    let mut seeded = Seeded::new(469);
    for count in 1..=16 {
        let assembly = random_assembly(&mut seeded, count);
        let right = assembly.vectors.len();
        let parts = right - count;
        let near = [right - 1, right + 1, right + 2, parts, parts + 1, count];
        let far = [0, 1, 17, 17 * count, right + 256, 2 * right];
        let lengths = near.into_iter().chain(far);
        for length in lengths.filter(|&length| length != right) {
            for entry in [0, 1, -1, i64::MAX] {
                let mut wrong = assembly.clone();
                wrong.vectors.resize(length, entry);
                assert_eq!(compare(&wrong), refused(12, 0), "{length}, not {right}");
                wrong.vectors.fill(entry);
                assert_eq!(compare(&wrong), refused(12, 0), "{length}, not {right}");
            }
        }
    }
}

/// Each entry of each block in turn with another number in its place: one that no set of parts allows is 13 at the size within that block,
/// and others are 13, 14 or accepted.
#[test]
fn vectors_with_one_entry_changed() {
    let mut seeded = Seeded::new(470);
    let mut seen = BTreeSet::new();
    for count in 1..=10 {
        let assembly = random_assembly(&mut seeded, count);
        for block in 0..count {
            let size = assembly.sizes[block];
            for j in 0..=size {
                let mut spoilt = assembly.clone();
                let most = binomial(size, j) as i64;
                for never in [-1, most + 1, i64::MIN, i64::MAX, most + (1 << 32)] {
                    vector_of(&mut spoilt, block)[j] = never;
                    assert_eq!(compare(&spoilt), refused(13, j), "{never}");
                }
                let any = seeded.between(0, most as usize) as i64;
                for entry in [0, 1, most / 2, most, any] {
                    vector_of(&mut spoilt, block)[j] = entry;
                    seen.insert(compare(&spoilt).err().map(|refusal| refusal.number));
                }
            }
        }
    }
    assert_eq!(seen, BTreeSet::from([None, Some(13), Some(14)]));
}

/// Every two lists of numbers in the place of path counts of three parts: the first block's refusal is told, also where it is 14 and the
/// second's is 13.
#[test]
fn every_pair_of_vectors_of_three_parts() {
    let lists = counts_of(3);
    let verdict_of = |counts: &[i64]| vector_verdict(Kind::PathCounts, 3, counts);
    let mut seen = BTreeSet::new();
    for first in &lists {
        for second in &lists {
            let assembly = Assembly::of(&[0x0E], &[first.clone(), second.clone()]);
            let (one, other) = assembly.vectors.split_at(4);
            let verdicts = [verdict_of(one), verdict_of(other)];
            let found = asked(&assembly);
            let expected = by_words::path_counts_of_blocks(&assembly);
            assert_eq!(found, expected, "{}", about_assembly(&assembly));
            assert_eq!(found.map(drop), verdicts[0].and(verdicts[1]));
            seen.insert(verdicts.map(|verdict| verdict.err().map(|refusal| refusal.number)));
        }
    }
    assert_eq!(seen.len(), 9, "{seen:?}");
}

/// So many parts in all, in as few blocks as can have them and in sixteen, each block running on any m of its parts.
fn assemblies_of(seeded: &mut Seeded, parts: usize) -> [Assembly; 2] {
    [parts.div_ceil(16), 16].map(|count| {
        let size = |b: usize| (parts + b) / count;
        let block = |b| counts_of_any(seeded.between(1, size(b)), size(b));
        let blocks: Vec<Vec<i128>> = (0..count).map(block).collect();
        assert_eq!(parts_of(&blocks), parts);
        Assembly::of(&random_table(seeded, count), &blocks)
    })
}

/// 33 for every number of parts from 17 on, 256 of them in sixteen blocks of sixteen; behind a refused last vector, and before 11.
#[test]
fn more_than_sixteen_parts_in_all() {
    let mut seeded = Seeded::new(471);
    for parts in 17..=256 {
        for mut assembly in assemblies_of(&mut seeded, parts) {
            assert_eq!(compare(&assembly), refused(33, 0), "{parts}");
            let last = assembly.vectors.len() - 1;
            assembly.vectors[last] = 2;
            let size = assembly.sizes[assembly.blocks - 1];
            assert_eq!(compare(&assembly), refused(13, size), "{parts}");
        }
    }
    for assembly in assemblies_of(&mut seeded, 16) {
        assert!(compare(&assembly).is_ok());
    }
}

/// Accepted and refused assemblies into buffers of every length up to 20: too short ones are 11 at n + 1 and stay as they were, to their
/// last cell, of the others n + 1 cells are written, and a refused call leaves all as it was.
#[test]
fn every_length_of_a_buffer() {
    let mut seeded = Seeded::new(472);
    let random = (1..=16).map(|count| random_assembly(&mut seeded, count));
    let single = (1..=16).map(|size| all_in_series(&[size]));
    let wrong = REFUSED_BLOCKS
        .map(|(blocks, table, sizes, vectors, ..)| Assembly::told(blocks, table, sizes, vectors));
    for assembly in random.chain(single).chain(wrong) {
        let expected = by_words::path_counts_of_blocks(&assembly);
        for length in 0..=20 {
            for pattern in [0, -1, 0x5A5A] {
                let before = vec![pattern; length];
                let about = || format!("{length} lent, {}", about_assembly(&assembly));
                same(
                    into(&assembly, &before),
                    delivered(&expected, &before),
                    about,
                );
            }
        }
    }
}

/// What the calculator answers, and what it leaves of a buffer.
fn into(assembly: &Assembly, before: &[i64]) -> Left<i64> {
    let Assembly {
        blocks,
        table,
        sizes,
        vectors,
    } = assembly;
    let mut after = before.to_vec();
    let answer = lent::path_counts_of_blocks(*blocks, table, sizes, vectors, &mut after);
    (answer, after)
}

/// The most cells that can be needed are those of sixteen parts.
#[test]
fn the_longest_result() {
    for count in 1..=16 {
        let mut sizes = vec![1; count];
        sizes[0] = 17 - count;
        let counts = asked(&all_in_series(&sizes)).expect("accepted blocks");
        assert_eq!(counts.len(), MOST_ENTRIES);
    }
}
