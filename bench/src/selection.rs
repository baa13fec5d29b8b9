//! The plain run's own algorithm in Rust, in machine words: chronological selection over all pairs, for the ratio of speeds.

use crate::causes::{at_track, at_wall, edge, write_row, Cause};
use reference::roll::Row;
use reference::sheet::{Records, Track};

fn of_walls(records: &Records, a: &Track) -> Cause {
    let walls = records.walls.iter().enumerate();
    walls.filter_map(|(who, w)| at_wall(a, who, w)).fold(edge(a), Cause::least)
}

fn of_tracks(records: &Records, a: &Track, base: Cause, ended: &[bool], best: &[Cause]) -> Cause {
    records.tracks.iter().enumerate().fold(base, |least, (who, b)| {
        if b.id == a.id {
            return least;
        }
        let end = ended[who].then_some(best[who].at);
        at_track(a, who, b, end).map_or(least, |cause| least.least(cause))
    })
}

/// Writes the roll's rows.
pub fn roll(records: &Records, out: &mut [u8]) {
    let tracks = &records.tracks;
    let base: Vec<Cause> = tracks.iter().map(|a| of_walls(records, a)).collect();
    let mut ended = vec![false; tracks.len()];
    let mut best = base.clone();
    for i in 0..tracks.len() {
        best[i] = of_tracks(records, &tracks[i], base[i], &ended, &best);
    }
    for k in 0..tracks.len() {
        for i in 0..tracks.len() {
            let Cause { class, who, reached, .. } = best[i];
            if !ended[i] && class == 0 && ended[who] && reached.order(best[who].at).is_gt() {
                best[i] = of_tracks(records, &tracks[i], base[i], &ended, &best);
            }
        }
        let running = (0..tracks.len()).filter(|&i| !ended[i]);
        let next = running.min_by(|&i, &j| best[i].at.order(best[j].at).then(tracks[i].id.cmp(&tracks[j].id)));
        let i = next.expect("a running tip");
        best[i] = best[i].lowest();
        ended[i] = true;
        write_row(&mut out[k * Row::LENGTH..][..Row::LENGTH], &tracks[i], &best[i]);
    }
}
