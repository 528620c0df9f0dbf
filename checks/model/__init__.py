"""An independent model of host and target, for `checks/until-model`."""
