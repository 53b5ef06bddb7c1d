//! What the tool writes of a tray stands for a tray that is judged alike.

use harness::generate::Generator;
use reference::tray::judge;
use tray::bytes::{frames_of, show_all, show_tray, tray_of};
use tray::text::parse;

#[test]
fn a_trays_text_is_judged_like_it() {
    let (mut sound, mut refused) = (0, 0);
    for seed in 0..400 {
        let tray = Generator::new(seed).tray();
        let again = parse(&show_tray(&tray)).unwrap().tray().unwrap();
        assert_eq!(judge(&again), judge(&tray), "seed {seed}");
        let Ok(frames) = judge(&tray) else {
            refused += 1;
            continue;
        };
        sound += 1;
        assert_eq!(again.len(), tray.len(), "seed {seed}");
        assert!(frames.iter().all(|frame| tray[frame.clone()] == again[frame.clone()]), "seed {seed}");
        let frames: Vec<Vec<u8>> = frames.into_iter().map(|frame| tray[frame].to_vec()).collect();
        assert_eq!(frames_of(&tray), frames, "seed {seed}");
        let text = show_all(frames.iter().map(Vec::as_slice));
        assert_eq!(parse(&text).unwrap().tray().unwrap(), tray_of(&frames), "seed {seed}");
    }
    assert!(sound > 100 && refused > 20, "{sound} sound, {refused} refused");
}
