//! `paper`: writes a paper.
use crate::arguments::Entry;
use crate::bytes::Bytes;
use crate::streams::Output;
use crate::{Status, Stop};

/// `paper`.
pub fn paper(out: &mut Output, fields: u16, init: Bytes, entries: Vec<Entry>) -> Result<Status, Stop> {
    let init = init.read()?;
    let mut bodies = Vec::new();
    for entry in entries {
        bodies.push((entry.parameters, entry.body.read()?));
    }
    let paper = written(fields, &init, &bodies)
        .ok_or_else(|| Stop::Failed("paper: an offset or a length is over 65535 and does not fit the header's field".into()))?;
    out.write(&paper)?;
    Ok(Status::Good)
}

/// The header of document 01, section 6, the initialiser, and the bodies in their order; `None` where a number does not fit
/// its field.
pub fn written(fields: u16, init: &[u8], bodies: &[(u16, Vec<u8>)]) -> Option<Vec<u8>> {
    let mut header = vec![u16::try_from(bodies.len()).ok()?, fields];
    let mut at = 8 + 6 * bodies.len();
    let mut part = |header: &mut Vec<u16>, bytes: &[u8]| -> Option<()> {
        header.extend([u16::try_from(at).ok()?, u16::try_from(bytes.len()).ok()?]);
        at += bytes.len();
        Some(())
    };
    part(&mut header, init)?;
    for (parameters, body) in bodies {
        header.push(*parameters);
        part(&mut header, body)?;
    }
    let mut paper: Vec<u8> = header.into_iter().flat_map(u16::to_le_bytes).collect();
    paper.extend(init);
    for (_, body) in bodies {
        paper.extend(body);
    }
    Some(paper)
}

#[cfg(test)]
mod tests {
    use super::written;

    #[test]
    fn the_paper_of_section_6() {
        let sample = [1, 0, 1, 0, 0x0e, 0, 0, 0, 1, 0, 0x0e, 0, 6, 0, 0x63, 0x51, 0x67, 0x52, 0x68, 0x75];
        assert_eq!(written(1, &[], &[(1, sample[14..].into())]), Some(sample.into()));
    }

    #[test]
    fn parts_stand_one_behind_the_other() {
        let paper = written(0x0102, &[9, 9], &[(3, vec![7]), (0xffff, Vec::new()), (0, vec![8, 8, 8])]).unwrap();
        let header = [3, 0, 2, 1, 26, 0, 2, 0, 3, 0, 28, 0, 1, 0, 255, 255, 29, 0, 0, 0, 0, 0, 29, 0, 3, 0];
        assert_eq!(paper, [&header[..], &[9, 9, 7, 8, 8, 8]].concat());
    }

    #[test]
    fn what_does_not_fit_its_field() {
        assert!(written(0, &[], &[(0, vec![0; 65_535])]).is_some());
        assert!(written(0, &[], &[(0, vec![0; 65_536])]).is_none());
        assert!(written(0, &vec![0; 65_536 - 20 - 1], &[(0, Vec::new()), (0, Vec::new())]).is_some());
        assert!(written(0, &vec![0; 65_536 - 20], &[(0, Vec::new()), (0, Vec::new())]).is_none());
        let many = vec![(0, Vec::new()); 10_921];
        assert!(written(0, &[], &many).is_some());
        assert!(written(0, &[], &[many, vec![(0, Vec::new()); 2]].concat()).is_none());
    }
}
