"""Cuts of a transaction and of its recovery."""
import pytest

from jcard import Card, PowerCut, ProgramEnded

COUNTER = "F0636F756E74657201"
repetitions = []


@pytest.mark.card(words=8192)
@pytest.mark.applet("../../java/src/test/applets/counter", select=COUNTER)
@pytest.mark.torn(recovery=True)
def test_torn_transaction_and_recovery(torn):
    repetitions.append(str(torn))
    assert torn.transmit("80010500").sw == 0x9000
    response = torn.tear("80010700")
    assert torn.select(COUNTER).sw == 0x9000
    assert torn.transmit("80000000").data == (b"\5" if response is None else b"\7")


def test_each_recovery_was_cut():
    # a change and a commit are 5 writes; after 0 to 2 there is nothing to take back, after 3 and 4 one entry, whose recovery makes 2 writes
    assert len(repetitions) == 3 * 1 + 2 * 3 + 1


@pytest.mark.card(words=8192)
@pytest.mark.applet("../../java/src/test/applets/counter", select=COUNTER)
def test_a_long_session_goes_on_after_a_power_up(card, monkeypatch):
    monkeypatch.setattr("jcard.card.RENEWAL", 100)
    first = card._process
    while card._told <= 100:
        card.transmit("80010500")
    card.cut_after(0)
    card.power_up()
    assert card._process is first  # which has a cut to come
    card.select(COUNTER)
    with pytest.raises(PowerCut):
        card.transmit("80010700")
    card.power_up()
    assert card._process is not first
    assert card.select(COUNTER).sw == 0x9000
    assert card.transmit("80000000").data == b"\5"


def test_a_new_card_in_memory_ends_where_a_script_does(monkeypatch):
    monkeypatch.setattr("jcard.card.RENEWAL", 10)
    monkeypatch.setattr("jcard.card.MOST_TOLD", 40)
    with Card.new() as card:
        card.transmit("80 00 00 00" + " " * 20)
        card.power_up()
        with pytest.raises(ProgramEnded):
            card.transmit("80000000")


@pytest.mark.card(words=8192)
@pytest.mark.applet("../../java/src/test/applets/counter", select=COUNTER)
def test_all_writes_pass(card, monkeypatch):
    monkeypatch.setattr("jcard.card.NEVER", 9)  # a command makes 5
    card.cut_never()
    for number in range(4):
        assert card.transmit("8001%02X00" % number).data == bytes([number])
