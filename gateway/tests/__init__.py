"""Tests of the gateway; checks/gateway runs them."""
