pub(crate) fn dc_pf() {}
