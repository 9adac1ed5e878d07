"""The methods of clients: one for each command, typed as its request and its reply are."""
# Written by `python3 -m sothvelm.generate` from examples/commands.txt.
from sothvelm import console_requests, requests
from sothvelm.call import call


class HostCommands:
    """The commands of a host."""

    generate_key = call(requests.generate_key)
    import_key = call(requests.import_key)
    export_key = call(requests.export_key)
    check_value_of_key = call(requests.check_value_of_key)
    translate_pin_block_from_tpk_to_zpk = call(requests.translate_pin_block_from_tpk_to_zpk)
    translate_pin_block_from_zpk_to_zpk = call(requests.translate_pin_block_from_zpk_to_zpk)
    offset_of_pin = call(requests.offset_of_pin)
    pvv_of_pin = call(requests.pvv_of_pin)
    verify_terminals_pin_by_offset = call(requests.verify_terminals_pin_by_offset)
    verify_pin_from_zone_by_offset = call(requests.verify_pin_from_zone_by_offset)
    verify_terminals_pin_by_pvv = call(requests.verify_terminals_pin_by_pvv)
    verify_pin_from_zone_by_pvv = call(requests.verify_pin_from_zone_by_pvv)
    put_clear_pin_under_lmks = call(requests.put_clear_pin_under_lmks)
    show_pin_under_lmks = call(requests.show_pin_under_lmks)
    draw_pin = call(requests.draw_pin)
    make_cvv = call(requests.make_cvv)
    verify_cvv = call(requests.verify_cvv)
    make_mac = call(requests.make_mac)
    verify_mac = call(requests.verify_mac)
    echo = call(requests.echo)
    check_of_lmks = call(requests.check_of_lmks)
    numbers_of_grants_and_hosts = call(requests.numbers_of_grants_and_hosts)
    cancel_all_activities = call(requests.cancel_all_activities)


class ConsoleCommands:
    """The texts of the console."""

    allow_activity = call(console_requests.allow_activity)
    cancel_activity = call(console_requests.cancel_activity)
    show_live_grants = call(console_requests.show_live_grants)
    show_where_ledger_stands = call(console_requests.show_where_ledger_stands)
    show_last_entries = call(console_requests.show_last_entries)
    draw_component_of_key = call(console_requests.draw_component_of_key)
    form_key_from_components = call(console_requests.form_key_from_components)
