package javacard.security;

/** A key on an elliptic curve as the card has it. */
public abstract class ECKeyObject extends KeyObject implements ECKey {
    ECKeyObject() {
    }

    public abstract void copyDomainParametersFrom(ECKey ecKey);

    public abstract short getA(byte[] buffer, short offset);

    public abstract short getB(byte[] buffer, short offset);

    public abstract short getField(byte[] buffer, short offset);

    public abstract short getG(byte[] buffer, short offset);

    public abstract short getK();

    public abstract short getR(byte[] buffer, short offset);

    public abstract void setA(byte[] buffer, short offset, short length);

    public abstract void setB(byte[] buffer, short offset, short length);

    public abstract void setFieldF2M(short e);

    public abstract void setFieldF2M(short e1, short e2, short e3);

    public abstract void setFieldFP(byte[] buffer, short offset, short length);

    public abstract void setG(byte[] buffer, short offset, short length);

    public abstract void setK(short K);

    public abstract void setR(byte[] buffer, short offset, short length);
}
