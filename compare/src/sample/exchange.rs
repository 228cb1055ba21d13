//! Load requests and the responses to them, by their parts.

use super::{fields, of_kind, Signed};
use crate::confirm::{Keys, Z_LENGTH};
use crate::kind::Kind;
use crate::random::Random;
use crate::record::read;
use crate::text::MAC_DIGITS;
use crate::worked::worked;

/// A load request and the response to it by their parts, permitted or not, and the Z of both.
#[derive(Clone)]
pub struct Exchange {
    pub z: Vec<u8>,
    pub id_sm: Vec<u8>,
    pub id_kmc: Vec<u8>,
    pub tvp: Vec<u8>,
    pub hwid: Vec<u8>,
    pub fwid: Vec<u8>,
    pub qe: Vec<u8>,
    /// The MacTag of the request.
    pub module_tag: Vec<u8>,
    /// The MacTag of the response.
    pub centre_tag: Vec<u8>,
}

impl Exchange {
    /// A permitted exchange with right tags.
    pub fn any(random: &mut Random) -> Exchange {
        let fields = fields(random, Kind::VkloadReq, Signed::No);
        Self::of(random.bytes(Z_LENGTH), fields)
    }

    /// The exchange of document 003.
    pub fn worked() -> Exchange {
        let request = worked("VKLOADREQ");
        let request = read(&request, &[Kind::VkloadReq]).expect("an accepted request");
        Self::of(worked("Z"), request.fields.iter().map(|field| field.to_vec()).collect())
    }

    /// The exchange of these permitted fields of a request, with right tags under this Z.
    pub fn of(z: Vec<u8>, fields: Vec<Vec<u8>>) -> Exchange {
        let [id_sm, id_kmc, tvp, hwid, fwid, qe, module_tag] =
            fields.try_into().expect("a request has seven fields");
        let centre_tag = module_tag.clone();
        let parts = Exchange { z, id_sm, id_kmc, tvp, hwid, fwid, qe, module_tag, centre_tag };
        parts.confirmed()
    }

    /// The same parts, which are permitted, with the tags that are right for them.
    pub fn confirmed(mut self) -> Exchange {
        // The texts are those of an accepted request, and do not depend on its tag.
        self.module_tag = vec![b'0'; MAC_DIGITS];
        let request = self.request();
        let keys = Keys::of(&self.z, &request);
        self.module_tag = keys.module_tag(&request);
        self.centre_tag = keys.centre_tag(&request);
        self
    }

    pub fn request_fields(&self) -> Vec<Vec<u8>> {
        let Exchange { id_sm, id_kmc, tvp, hwid, fwid, qe, module_tag, .. } = self;
        [id_sm, id_kmc, tvp, hwid, fwid, qe, module_tag].map(Clone::clone).to_vec()
    }

    pub fn response_fields(&self) -> Vec<Vec<u8>> {
        let Exchange { id_sm, id_kmc, tvp, centre_tag, .. } = self;
        [id_kmc, id_sm, tvp, centre_tag].map(Clone::clone).to_vec()
    }

    /// The request of these parts; its check is right.
    pub fn request(&self) -> Vec<u8> {
        of_kind(Kind::VkloadReq, &self.request_fields())
    }

    /// The response of these parts; its check is right.
    pub fn response(&self) -> Vec<u8> {
        of_kind(Kind::VkloadResp, &self.response_fields())
    }
}

#[cfg(test)]
mod tests {
    use super::*;
    use crate::confirm::{request, response, KEY_LENGTH};
    use crate::refusal::Refusal;

    #[test]
    fn an_exchange_has_the_right_tags_until_others_are_put_in() {
        let mut random = Random::with_seed(10);
        let mut keys = [[0; KEY_LENGTH]; 2];
        for _ in 0..100 {
            let mut exchange = Exchange::any(&mut random);
            let mut both = |exchange: &Exchange| {
                let (z, asked) = (&exchange.z, exchange.request());
                let [mac_key, kek] = &mut keys;
                [request(z, &asked, mac_key, kek), response(z, &asked, &exchange.response())]
            };
            assert_eq!(both(&exchange), [Ok(()); 2]);
            exchange.module_tag.rotate_left(1);
            exchange.centre_tag.rotate_left(1);
            assert_eq!(both(&exchange), [Err(Refusal::TagDiffers.into()); 2]);
        }
    }

    #[test]
    fn the_parts_of_the_worked_exchange_make_it_again() {
        let exchange = Exchange::worked();
        assert_eq!(exchange.request(), worked("VKLOADREQ"));
        assert_eq!(exchange.response(), worked("VKLOADRESP"));
    }
}
