//! The conversions of settings files, by the words of the paper.

use super::Model;
use crate::settings::{settings, Conversion, Converter};

impl Converter for Model {
    fn answer(conversion: Conversion, file: &[u8], out: &mut [u8], fields: &mut [u32; 2]) -> u32 {
        let to = conversion.to();
        *fields = [0; 2];
        let Ok(settings) = settings(conversion.from(), file) else {
            return 50;
        };
        if let Some(long) = settings.iter().find(|setting| u64::from(setting.seconds) > to.most_seconds()) {
            fields[1] = u32::from(long.key);
            return 51;
        }
        let result: Vec<u8> = settings.iter().flat_map(|setting| setting.bytes(to)).collect();
        let Some(front) = out.get_mut(..result.len()) else {
            return 52;
        };
        front.copy_from_slice(&result);
        fields[0] = result.len() as u32;
        0
    }
}
